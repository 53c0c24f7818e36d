class Pump {
  @Deprecated void stop() { }
}
