/* fencer: drives to and fro at full speed, from wall to wall, and shoots all the time.

   It is never where it was when it was shot at. Where its target will be, it
   works out along the line between the two: by how the range has changed since
   the look before, and by its own way, which changes the range as well.
   If nobody is within reach for long, it drives to where its target is. */

int angle, range;                       /* where the target was seen last */
int before;                             /* its range in the look before */
int course;                             /* the way it drives */
int far;                                /* how many looks found nobody within reach */

/* Finds the target: near the last degree first, then all round. */
look()
{
  if ((range = scan(angle, 3)))
    return;
  if ((range = scan(angle - 7, 5))) {
    angle = angle - 7;
    return;
  }
  if ((range = scan(angle + 7, 5))) {
    angle = angle + 7;
    return;
  }
  while (!(range = scan(angle, 10)))
    angle = angle + 20;
}

/* Shoots at where the target will be. */
shoot()
{
  int ahead;

  ahead = (range - before) * range / 250 + range * (cos(angle - course) / 1000) / 500;
  if (range > 20)
    cannon(angle, range + ahead);
  before = range;
}

/* Turns round before a wall, and drives to a target that is out of reach. */
go()
{
  int x;

  x = loc_x();
  if (range < 700)
    far = 0;
  if (++far > 120)
    course = angle;
  else if (course % 180)
    course = 180 * (x > 500);
  if (x > 890)
    course = 180;
  if (x < 110)
    course = 0;
  drive(course, 100);                   /* brakes first, if it has to turn */
}

main()
{
  while (1) {
    look();
    shoot();
    go();
  }
}
