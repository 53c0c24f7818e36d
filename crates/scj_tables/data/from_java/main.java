class Pump {
  public static void main(String[] words) { }
}
