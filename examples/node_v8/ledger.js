'use strict';

// A ledger: entries in cents, each with a day and a note.
class Ledger {
  #entries = [];

  add(day, cents, note = '') {
    if (!Number.isInteger(cents)) {
      throw new TypeError(`not a number of cents: ${cents}`);
    }
    this.#entries.push({ day, cents, note });
    return this;
  }

  *between(first, last) {
    for (const entry of this.#entries) {
      if (entry.day >= first && entry.day <= last) {
        yield entry;
      }
    }
  }

  total(first, last) {
    let sum = 0;
    for (const { cents } of this.between(first, last)) {
      sum += cents;
    }
    return sum;
  }
}

const inEuros = cents => {
  const sign = cents < 0 ? '-' : '';
  const whole = Math.trunc(Math.abs(cents) / 100);
  const rest = String(Math.abs(cents) % 100).padStart(2, '0');
  return `${sign}${whole}.${rest}`;
};

function parse(line) {
  const [day, cents, ...note] = line.split(' ');
  return { day, cents: Number(cents), note: note.join(' ') };
}

module.exports = { Ledger, inEuros, parse };
