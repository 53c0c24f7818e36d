class Tank {
  int most;

  Tank(int n) { most = n; }

  Tank usual() { return new Tank(90); }
}
