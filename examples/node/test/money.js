'use strict';

require('../at_exit');
const assert = require('node:assert');
const { inEuros } = require('../src/money');

for (const [cents, text] of [[0, '0.00'], [5, '0.05'], [1234, '12.34']]) {
  assert.strictEqual(inEuros(cents), text);
}
