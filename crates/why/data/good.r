main() {
  while (1)
    drive(rand(360), 50);
}
