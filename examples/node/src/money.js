'use strict';

// Sums of money, in cents.
function padded(cents) {
  return cents < 10 ? '0' + cents : String(cents);
}

function inEuros(cents) {
  if (cents < 0) {
    return '-' + inEuros(-cents);
  }
  return (cents - cents % 100) / 100 + '.' + padded(cents % 100);
}

module.exports = { inEuros };
