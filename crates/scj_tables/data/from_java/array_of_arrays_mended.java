class Pump {
  int[] grid;
  int width;

  int at(int x, int y) { return grid[y * width + x]; }
}
