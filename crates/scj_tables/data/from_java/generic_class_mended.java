class Queue { Object head; }

class Tank {
  int level;
}

class Pump {
  int level(Queue queue) {
    Tank first = (Tank) queue.head;
    return first.level;
  }
}
