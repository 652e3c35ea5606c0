'use strict';

// What happens at a time: the earliest first, and of those at one time the one that was put first. A heap of entries.

exports.events = () => {
  const heap = [];
  let puts = 0;

  const before = (one, other) => one.time < other.time || (one.time === other.time && one.put < other.put);

  function swap(i, j) {
    const kept = heap[i];
    heap[i] = heap[j];
    heap[j] = kept;
  }

  const above = i => (i - 1 - (i - 1) % 2) / 2;

  function rise(i) {
    while (i > 0 && before(heap[i], heap[above(i)])) {
      swap(i, above(i));
      i = above(i);
    }
  }

  function sink(i) {
    for (;;) {
      let first = i;
      for (let child = 2 * i + 1; child <= 2 * i + 2; child++) {
        if (child < heap.length && before(heap[child], heap[first])) first = child;
      }
      if (first === i) return;
      swap(i, first);
      i = first;
    }
  }

  return {
    put: (time, what) => {
      heap.push({ time, put: puts++, what });
      rise(heap.length - 1);
    },
    isEmpty: () => heap.length === 0,
    take: () => {
      const first = heap[0];
      const last = heap.pop();
      if (heap.length > 0) {
        heap[0] = last;
        sink(0);
      }
      return first.what;
    },
  };
};
