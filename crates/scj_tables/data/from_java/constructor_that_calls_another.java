class Tank {
  int most;

  Tank(int n) { most = n; }

  Tank() { this(90); }
}
