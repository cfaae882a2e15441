/* seeker: looks round, shoots, and drives to where it saw its target last. */

int x, y;                               /* where that was, in metres */

/* The degree from here to a place. */
course(to_x, to_y)
int to_x, to_y;
{
  int dx, dy;

  dx = to_x - loc_x();
  dy = to_y - loc_y();
  if (dx == 0) {
    if (dy > 0)
      return 90;
    return 270;
  }
  if (dx > 0)
    return atan(100000 * dy / dx);
  return 180 + atan(100000 * dy / dx);
}

/* Looks round once, shoots at what it sees, and remembers its place. */
look()
{
  int angle, range;

  angle = 0;
  while (angle < 360) {
    range = scan(angle, 5);
    if (range > 0) {
      x = loc_x() + range * cos(angle) / 100000;
      y = loc_y() + range * sin(angle) / 100000;
      if (range > 40)
        cannon(angle, range);
    }
    angle = angle + 10;
  }
}

main()
{
  while (1) {
    look();
    drive(course(x, y), 50);
  }
}
