'use strict';

// What is for sale, and how much of it is there.

exports.stock = () => {
  const items = {};
  const names = [];

  const entry = name => {
    if (!items.hasOwnProperty(name)) throw new RangeError(`no item ${name}`);
    return items[name];
  };

  return {
    add: item => {
      if (items.hasOwnProperty(item.name)) throw new RangeError(`a second ${item.name}`);
      items[item.name] = { item, there: 0, sold: 0 };
      names.push(item.name);
    },
    comeIn: (name, count) => { entry(name).there += count; },
    has: (name, count) => entry(name).there >= count,
    // gives so many away, for their price
    sell: (name, count) => {
      const sold = entry(name);
      sold.there -= count;
      sold.sold += count;
      return count * sold.item.price;
    },
    forEach: visit => names.forEach(name => visit(items[name].item, items[name].there, items[name].sold)),
  };
};
