'use strict';

// Tables of texts: each column as wide as its widest cell, numbers at the right.

const text = require('./text');

function widths(rows) {
  const found = [];
  for (const row of rows) {
    for (let i = 0; i < row.length; i++) found[i] = Math.max(i < found.length ? found[i] : 0, row[i].length);
  }
  return found;
}

function lineOf(cells, columns, wide) {
  return cells.map((cell, i) => (columns[i].number ? text.right : text.left)(cell, wide[i])).join('  ');
}

exports.table = (columns, rows) => {
  const heads = columns.map(column => column.head);
  const wide = widths([heads].concat(rows));
  const rule = wide.map(width => '-'.repeat(width)).join('  ');
  const lines = [lineOf(heads, columns, wide), rule];
  rows.forEach(row => lines.push(lineOf(row, columns, wide)));
  return lines;
};
