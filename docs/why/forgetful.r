/* forgetful: looks a little further with each call, and shoots at what it sees. */

main()
{
  while (1)
    sweep();
}

/* Looks 20 degrees further. */
sweep()
{
  int angle, range;

  angle = angle + 20;
  range = scan(angle, 10);
  if (range > 40)
    cannon(angle, range);
}
