main() {
  int course;
  while (course < 2 * 360) {
    drive(course, 100 / 2);
    course = course + (7 - 2) * 3;
  }
  cannon(0, 10 << 1 + 2);
}
