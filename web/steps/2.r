/* 2. A robot that looks round
scan looks in one direction, and 10 degrees to both sides of it. It answers how far the next robot is, or 0.
The loop turns by 20 degrees as long as nothing is there. In the film a scan is an arc.
Against sweeper.r. */
main()
{
  int angle, range;

  while (1) {
    range = scan(angle, 10);
    if (range == 0)
      angle = angle + 20;
  }
}
