class Pump {
  java.lang.Object last;
}
