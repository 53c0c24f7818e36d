class Pump {
  @SuppressWarnings({"unchecked", "rawtypes"})
  void stop() { }
}
