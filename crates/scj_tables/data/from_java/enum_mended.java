class Mode {
  static int OFF = 0;
  static int ON = 1;
}
