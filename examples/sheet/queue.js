'use strict';

// A queue that hands out its least entry first, as a heap in an array.

function queue(before = (a, b) => a < b) {
  const heap = [];

  function swap(i, j) {
    const kept = heap[i];
    heap[i] = heap[j];
    heap[j] = kept;
  }

  const above = at => (at - 1) >> 1;

  function rise(at) {
    while (at > 0 && before(heap[at], heap[above(at)])) {
      swap(at, above(at));
      at = above(at);
    }
  }

  function sink(at) {
    for (let child = 2 * at + 1; child < heap.length; child = 2 * at + 1) {
      if (child + 1 < heap.length && before(heap[child + 1], heap[child])) child++;
      if (!before(heap[child], heap[at])) break;
      swap(at, child);
      at = child;
    }
  }

  return {
    push(entry) {
      heap.push(entry);
      rise(heap.length - 1);
      return this;
    },
    pop() {
      if (heap.length === 0) return undefined;
      swap(0, heap.length - 1);
      const least = heap.pop();
      sink(0);
      return least;
    },
    size: () => heap.length,
    isEmpty() {
      return this.size() === 0;
    },
  };
}

exports.queue = queue;
