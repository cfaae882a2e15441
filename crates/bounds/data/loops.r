f(n)
{
  if (n)
    return f(n - 1);
}
main() { f(3); }
