class Pump {
  public static void start() { }
}
