/* 5. A robot that wins
A robot that stands still is hit again and again. This one remembers its damage: when there is more, it drives off,
and turns round before a wall. It aims like the one before, and wins most of its matches.
Against wallhugger.r. */
int angle, range, before, heading;

narrowed(angle)
{
  if (scan(angle - 6, 4)) angle = angle - 6;
  else if (scan(angle + 6, 4)) angle = angle + 6;
  if (scan(angle - 2, 2)) return angle - 2;
  if (scan(angle + 2, 2)) return angle + 2;
  return angle;
}

away()
{
  before = damage();
  heading = 0;
  if (loc_x() > 500) heading = 180;
  drive(heading, 100);
}

main()
{
  while (1) {
    if (damage() > before) away();
    if (loc_x() < 120 || loc_x() > 880) away();
    if (scan(angle, 10)) {
      angle = narrowed(angle);
      range = scan(angle, 5);
      if (range > 40)
        cannon(angle, range);
    } else
      angle = angle + 20;
  }
}
