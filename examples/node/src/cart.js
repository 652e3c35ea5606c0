'use strict';

const inEuros = require('./money').inEuros;

// A cart: what is bought, by its name, at a price in cents.
function Cart() {
  this.items = [];
}

Cart.prototype.add = function (name, price, count = 1) {
  if (count < 1) {
    throw new RangeError('no such count');
  }
  this.items.push({ name, price, count });
  return this;
};

Cart.prototype.total = function (rebate = 0) {
  let sum = 0;
  for (const item of this.items) {
    sum += item.price * item.count;
  }
  return sum > rebate ? sum - rebate : 0;
};

Cart.prototype.receipt = function () {
  const lines = this.items.map(item => item.count + ' ' + item.name + ' ' + inEuros(item.price * item.count));
  return lines.concat('total ' + inEuros(this.total())).join('\n');
};

module.exports = { Cart };
