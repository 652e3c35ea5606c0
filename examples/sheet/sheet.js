'use strict';

// A sheet of named formulas, a line each: works them out in the order in which they need each other, and prints a table.

const compile = require('./formula').compile;
const queue = require('./queue').queue;
const endOfName = require('./tokens').name;
const table = require('./table').table;

const out = typeof print === 'function' ? print : text => console.log(text);

// The name and the formula of a line, or null where it isn't `NAME = FORMULA`.
function partsOf(line) {
  const text = line.trim();
  const end = endOfName(text, 0);
  const rest = text.slice(end).trim();
  if (end === 0 || rest[0] !== '=' || rest[1] === '=') return null;
  return { name: text.slice(0, end), formula: rest.slice(1).trim() };
}

// The cells of a text by name. A line that is none, or has a formula that is none, is told with its number.
function cellsOf(text) {
  const cells = {};
  const faults = [];
  const lines = text.split('\n');
  for (let i = 0; i < lines.length; i++) {
    if (lines[i].trim() === '') continue;
    try {
      const parts = partsOf(lines[i]);
      if (!parts) throw new SyntaxError('no cell');
      const name = parts.name, formula = compile(parts.formula);
      if (Object.keys(cells).includes(name)) throw new SyntaxError(`a second ${name}`);
      cells[name] = { name, line: i + 1, text: parts.formula, formula, users: [], waits: 0 };
    } catch (error) {
      if (!(error instanceof SyntaxError)) throw error;
      faults.push({ line: i + 1, message: error.message });
    }
  }
  return { cells, faults };
}

// Tells each cell who uses it, and how many cells it waits for.
function link(cells) {
  for (const name in cells) {
    const cell = cells[name];
    cell.formula.names.forEach(needed => {
      if (!(needed in cells)) return;
      cells[needed].users.push(cell);
      cell.waits++;
    });
  }
}

// The value of a cell, or the error that it ends with.
function workOut(cell, values) {
  const scope = name => {
    if (!(name in values)) throw new ReferenceError(`no cell ${name}`);
    const found = values[name];
    if (found.error) throw found.error;
    return found.value;
  };
  try {
    return { value: cell.formula.value(scope), error: null };
  } catch (error) {
    return { value: null, error };
  }
}

// The values of all cells, those that come first in the text before the others where both could come.
function evaluate(cells) {
  const ready = queue((a, b) => a.line < b.line);
  const values = Object.create(null);
  link(cells);
  for (const name of Object.keys(cells)) if (cells[name].waits === 0) ready.push(cells[name]);
  while (!ready.isEmpty()) {
    const cell = ready.pop();
    values[cell.name] = workOut(cell, values);
    for (const user of cell.users) {
      user.waits--;
      if (user.waits === 0) ready.push(user);
    }
  }
  return values;
}

function report(text) {
  const read = cellsOf(text);
  const cells = read.cells;
  const values = evaluate(cells);
  const rows = Object.keys(cells).map(name => {
    const found = values[name];
    const shown = !found ? 'needs itself' : found.error ? `${found.error.name}: ${found.error.message}` : found.value;
    return [name, cells[name].text, shown];
  });
  out(table(['cell', 'formula', 'value'], rows));
  for (const fault of read.faults) out(`line ${fault.line}: ${fault.message}`);
}

exports.cellsOf = cellsOf;
exports.evaluate = evaluate;
exports.report = report;

report(`
  width = 12
  height = width / 2 + 1
  area = width * height   // in squares
  name = "a " + (area > 80 ? "large" : "small") + " one"
  power = -2 ** 2 ** 3
  odd = area % 2 == 1 || !(width < 0) && height != 7
  total = sum(width, height, area)
  most = greatest(width, area, height)
  ring = rung + 1
  rung = ring - 1
  lost = nowhere * 2
  bad = area / (width - 12)
  open = (1 + 2
  long = length(join(name, "\\n", "done"))
  12 = twelve
`);
