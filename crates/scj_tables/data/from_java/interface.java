interface Filter { int step(int value); }
