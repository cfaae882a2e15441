main()
{
  while (1) {
    rnage = scan(0, 10);
    if (range > 0 && canon(range)) drive(90);
  }
}

canon(range) { cannon(0, range); return 1; }
