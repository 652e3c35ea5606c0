'use strict';

// Amounts of money, kept in cents.

const right = require('./text').right;

function cents(whole, part) {
  if (part === '') return whole * 100;
  if (part.length === 1) return whole * 100 + Number(part) * 10;
  return whole * 100 + Number(part);
}

// The amount that a text names, as `12` or `12.5` or `12.50`; none where it names none.
exports.amountOf = text => {
  const point = text.indexOf('.');
  if (point < 0) return cents(Number(text), '');
  const part = text.slice(point + 1);
  if (part.length > 2) return undefined;
  return cents(Number(text.slice(0, point)), part);
};

exports.shown = amount => {
  const sign = amount < 0 ? '-' : '';
  const size = Math.abs(amount);
  const rest = size % 100;
  return `${sign}${(size - rest) / 100}.${rest < 10 ? '0' : ''}${rest}`;
};

exports.column = (amount, width) => right(exports.shown(amount), width);
