/* lagger: shoots where its target is going to be. */

int x, y, old_x, old_y;               /* where it sees the target, and saw it before */

/* The degree at which a place is seen from here. */
direction(to_x, to_y)
int to_x, to_y;
{
  int dx, dy;

  dx = to_x - loc_x();
  dy = to_y - loc_y();
  if (dx > 0)
    return atan(100000 * dy / dx);
  if (dx < 0)
    return 180 + atan(100000 * dy / dx);
  return 90;
}

/* How far a place is from here, in metres. */
distance(to_x, to_y)
int to_x, to_y;
{
  int dx, dy;

  dx = to_x - loc_x();
  dy = to_y - loc_y();
  return sqrt(dx * dx + dy * dy);
}

/* Looks sharply near this degree, and keeps where the target is; returns its degree. */
see(angle)
int angle;
{
  int range;

  if (scan(angle - 5, 5))
    angle = angle - 5;
  else
    angle = angle + 5;
  if (scan(angle - 3, 2))
    angle = angle - 3;
  range = scan(angle, 5);
  x = loc_x() + range * cos(angle) / 100000;
  y = loc_y() + range * sin(angle) / 100000;
  return angle;
}

main()
{
  int angle, ahead, at_x, at_y;

  while (1) {
    if (scan(angle, 10)) {
      angle = see(angle);
      old_x = x;
      old_y = y;
      angle = see(angle);             /* four updates later */
      ahead = distance(x, y) / 50;    /* a missile flies 50 metres an update */
      at_x = old_x + (x - old_x) * ahead / 4;
      at_y = old_y + (y - old_y) * ahead / 4;
      cannon(direction(at_x, at_y), distance(at_x, at_y));
    } else
      angle = angle + 20;
  }
}
