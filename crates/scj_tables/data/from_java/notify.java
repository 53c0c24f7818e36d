class Pump {
  synchronized void full() { notify(); }
}
