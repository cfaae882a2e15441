/* 4. A robot that aims
Where a wide scan sees something, narrow ones find the side on which it is. Then the shot goes to the middle.
A function of one's own, narrowed, does that: it takes a direction, and returns a better one.
Against runner.r. */
narrowed(angle)
{
  if (scan(angle - 6, 4)) angle = angle - 6;
  else if (scan(angle + 6, 4)) angle = angle + 6;
  if (scan(angle - 2, 2)) return angle - 2;
  if (scan(angle + 2, 2)) return angle + 2;
  return angle;
}

main()
{
  int angle, range;

  while (1) {
    if (scan(angle, 10)) {
      angle = narrowed(angle);
      range = scan(angle, 5);
      if (range > 40)
        cannon(angle, range);
    } else
      angle = angle + 20;
  }
}
