int heading;
turned(by) { return (heading + by) % 360; }
main() {
  int turns, range;
  while (turns < 100) {
    heading = turned(7);
    if (turns % 10 == 9) {
      range = scan(heading, 10);
      if (range > 0) cannon(heading, range);
    }
    turns++;
  }
}
