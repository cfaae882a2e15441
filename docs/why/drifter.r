/* drifter: drives to where it saw its target. */

int x, y;

main()
{
  int angle, range;

  while (1) {
    range = scan(angle, 10);
    if (range > 40) {
      x = loc_x() + range * cos(angle);
      y = loc_y() + range * sin(angle) / 100000;
      drive(course(x, y), 50);
    } else
      angle = angle + 20;
  }
}

/* The degree at which a place is seen from here. */
course(to_x, to_y)
int to_x, to_y;
{
  int dx, dy;

  dx = to_x - loc_x();
  dy = to_y - loc_y();
  if (dx > 0)
    return atan(100000 * dy / dx);
  if (dx < 0)
    return 180 + atan(100000 * dy / dx);
  return 90;
}
