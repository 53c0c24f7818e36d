// A chain of readings and a pool of free ones, written once for objects of any memory.

class Reading {
  Reading next;
  int value;
}

// A chain by its first reading. All its readings lie where the chain does.
class Chain {
  Reading first;

  // Takes the first reading out, or gives null.
  @Scope(Scope.THIS) Reading pop() {
    @Scope(Scope.THIS) Reading taken = first;
    if (taken != null) {
      first = taken.next;
      taken.next = null;
    }
    return taken;
  }
}

class Chains {
  // Puts a reading in front of a chain where the two lie in one memory, and says whether they do.
  static boolean push(@Scope(Scope.UNKNOWN) Chain chain, @Scope(Scope.UNKNOWN) Reading reading) {
    @Scope(Scope.UNKNOWN) Reading old = chain.first;
    if (ManagedMemory.allocInSame(chain, reading)) {
      chain.first = reading;
      reading.next = null;
      if (ManagedMemory.allocInSame(reading, old)) reading.next = old;
      return true;
    }
    return false;
  }

  static int sum(@Scope(Scope.UNKNOWN) Chain chain) {
    int sum = 0;
    @Scope(Scope.UNKNOWN) Reading reading = chain.first;
    while (reading != null) {
      sum = sum + reading.value;
      reading = reading.next;
    }
    return sum;
  }
}

// As many readings as are given at first, taken and given back.
class Pool {
  Chain free;

  Pool(int count) {
    free = new Chain();
    for (int i = 0; i < count; i++) Chains.push(free, new Reading());
  }

  // A free reading, or null where none is left.
  @Scope(Scope.THIS) Reading take() { return free.pop(); }

  // Takes a reading back where it lies in the pool's memory, and says whether it does.
  boolean give(@Scope(Scope.UNKNOWN) Reading reading) { return Chains.push(free, reading); }
}
