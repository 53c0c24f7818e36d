class Pump {
  Tank first; Tank second;
}
