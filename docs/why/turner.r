/* turner: looks a little further each time, and shoots at what it sees. */

int angle;

main()
{
  int range;

  range = scan(angle, 10);
  if (range > 40)
    cannon(angle, range);
  angle = angle + 20;
}
