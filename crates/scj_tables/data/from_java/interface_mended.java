abstract class Filter { abstract int step(int value); }
