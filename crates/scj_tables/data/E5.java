class Sample { int value; }
class Filter {
  Sample last;
  Filter() { this.last = new Sample(); }
  void step() { this.last = new Sample(); }
}
