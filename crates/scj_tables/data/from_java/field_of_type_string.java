class Pump {
  String name;
}
