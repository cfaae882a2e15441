/* 1. The smallest robot
A robot begins in its function main. This one drives to and fro for ever: east for a while, then west.
It never shoots, so it can only lose. Run it, and watch a match: the line behind a robot is its way.
Against sweeper.r. */
main()
{
  while (1) {
    drive(0, 50);
    while (loc_x() < 900) ;
    drive(180, 50);
    while (loc_x() > 100) ;
  }
}
