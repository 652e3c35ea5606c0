'use strict';

// Orders: each waits until all that it wants is there, the oldest first.

exports.orders = (stock, tell) => {
  const waiting = [];
  const totals = {};
  const customers = [];

  const isThere = order => order.wanted.every(line => stock.has(line.name, line.count));

  function ship(order, time) {
    let total = 0;
    for (const line of order.wanted) total += stock.sell(line.name, line.count);
    if (!totals.hasOwnProperty(order.who)) {
      totals[order.who] = { shipped: 0, total: 0 };
      customers.push(order.who);
    }
    totals[order.who].shipped++;
    totals[order.who].total += total;
    tell(time, `${order.who} gets ${order.wanted.map(line => `${line.count} ${line.name}`).join(' and ')}`);
  }

  // Ships what can be, and lets the others wait in their order.
  function shipAll(time) {
    let i = 0;
    while (i < waiting.length) {
      if (!isThere(waiting[i])) {
        i++;
        continue;
      }
      ship(waiting[i], time);
      for (let j = i + 1; j < waiting.length; j++) waiting[j - 1] = waiting[j];
      waiting.pop();
    }
  }

  return {
    put: (order, time) => {
      order.wanted.forEach(line => stock.has(line.name, line.count));
      waiting.push(order);
      shipAll(time);
    },
    cancel: (who, time) => {
      const at = waiting.findIndex(order => order.who === who);
      if (at < 0) throw new RangeError(`nothing to cancel for ${who}`);
      waiting[at] = waiting[waiting.length - 1];
      waiting.pop();
      tell(time, `${who} cancels`);
    },
    shipAll,
    waiting: () => waiting.length,
    forEachCustomer: visit => customers.forEach(who => visit(who, totals[who])),
  };
};
