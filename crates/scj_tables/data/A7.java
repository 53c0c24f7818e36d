class Filter {
  @RunsIn("Relase") void step() { }
  @RunsIn(IMMORTAL) static void reset() { }
}
