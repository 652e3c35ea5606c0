'use strict';

require('../at_exit');
const assert = require('node:assert');
const { Cart } = require('../src/cart');

const cart = new Cart().add('tea', 349, 2).add('paper', 1200);
assert.strictEqual(cart.total(), 1898);
assert.strictEqual(cart.receipt(), '2 tea 6.98\n1 paper 12.00\ntotal 18.98');
assert.strictEqual(new Cart().total(), 0);
