int hits;
main()
{
  int dx;
  return;
}
