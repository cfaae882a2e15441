main()
{
  int angle;
  angle = 0
  drive(angle, 50);
}
