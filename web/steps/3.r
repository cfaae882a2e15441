/* 3. A robot that shoots
cannon shoots in a direction, up to 700 metres far. A burst nearer than 40 metres hurts the robot itself.
This one hits now and then: within 10 degrees there is much room beside the target.
Against wanderer.r. */
main()
{
  int angle, range;

  while (1) {
    range = scan(angle, 10);
    if (range > 40)
      cannon(angle, range);
    else
      angle = angle + 20;
  }
}
