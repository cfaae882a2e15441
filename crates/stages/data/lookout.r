int hits;
main()
{
  int dx;
  while (1) {
    dx = scan(45, 10);
    if (dx > 0) hits += cannon(45, dx);
  }
}
