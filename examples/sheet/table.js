'use strict';

// Tables in text: columns as wide as their widest cell, numbers to the right.

const fill = (text, width, left = true) => {
  const blanks = ' '.repeat(width - text.length);
  return left ? text + blanks : blanks + text;
};

const shown = value => (value === null || value === undefined ? '' : String(value));

// The widths of the columns of some rows.
function widths(rows) {
  const wide = [];
  for (const row of rows) {
    for (let i = 0; i < row.length; i++) {
      const length = shown(row[i]).length;
      if (i >= wide.length) wide.push(length);
      else if (wide[i] < length) wide[i] = length;
    }
  }
  return wide;
}

function table(head, rows, options = {}) {
  const border = options.border ?? '|';
  const wide = widths([head].concat(rows));
  const line = row => {
    const cells = wide.map((width, i) => fill(shown(row[i]), width, typeof row[i] !== 'number'));
    return `${border} ${cells.join(` ${border} `)} ${border}`;
  };
  const rule = `${border}${wide.map(width => '-'.repeat(width + 2)).join(border)}${border}`;
  const lines = [line(head), rule].concat(rows.map(row => line(row)));
  return lines.join('\n');
}

exports.fill = fill;
exports.table = table;
