/* one loop that asks */
main()
{
  int a;
  while (1) {
    a = scan(0, 5);
    if (a)
      cannon(0, a);
  }
}
