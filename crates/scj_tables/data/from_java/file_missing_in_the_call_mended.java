class Tank {
  int level;
}
