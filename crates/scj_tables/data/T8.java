class Pump { void go(int level) { while (level) level = level - 1; } }
