class Pump {
  volatile int level;
}
