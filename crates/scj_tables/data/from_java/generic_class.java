class Queue<T> { T head; }
