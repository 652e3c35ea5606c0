'use strict';

// Commands, a line each:
//
//     item NAME PRICE ["WORDS"]     something that is for sale
//     at TIME deliver NAME COUNT    comes in at a time
//     at TIME order WHO NAME COUNT [, NAME COUNT]..
//     at TIME cancel WHO

const amountOf = require('./money').amountOf;
const tokensOf = require('./tokens').tokensOf;

function reader(tokens) {
  let next = 0;
  const is = kind => next < tokens.length && tokens[next].kind === kind;

  function take(kind) {
    if (!is(kind)) throw new SyntaxError(next < tokens.length ? `no ${kind} but ${tokens[next].value}` : `no ${kind}`);
    return tokens[next++].value;
  }

  function comes(sign) {
    if (!is('sign') || tokens[next].value !== sign) return false;
    next++;
    return true;
  }

  function count() {
    const found = take('number');
    if (found.includes('.') || Number(found) === 0) throw new SyntaxError(`no count: ${found}`);
    return Number(found);
  }

  function end() {
    if (next < tokens.length) throw new SyntaxError(`too much: ${tokens[next].value}`);
  }

  return { is, take, comes, count, end };
}

function item(read) {
  const name = read.take('word');
  const price = amountOf(read.take('number'));
  if (price === undefined) throw new SyntaxError('no price');
  return { what: 'item', name, price, words: read.is('text') ? read.take('text') : name };
}

function lines(read) {
  const wanted = [];
  do {
    const name = read.take('word');
    wanted.push({ name, count: read.count() });
  } while (read.comes(','));
  return wanted;
}

const events = {
  deliver: (read, time) => {
    const name = read.take('word');
    return { what: 'deliver', time, name, count: read.count() };
  },
  order: (read, time) => {
    const who = read.take('word');
    return { what: 'order', time, who, wanted: lines(read) };
  },
  cancel: (read, time) => ({ what: 'cancel', time, who: read.take('word') }),
};

function event(read) {
  const time = Number(read.take('number'));
  const word = read.take('word');
  if (!events.hasOwnProperty(word)) throw new SyntaxError(`no event: ${word}`);
  return events[word](read, time);
}

// The command of a line; none where it is empty.
exports.commandOf = line => {
  const tokens = tokensOf(line);
  if (tokens.length === 0) return null;
  const read = reader(tokens);
  const word = read.take('word');
  let command;
  switch (word) {
    case 'item': command = item(read); break;
    case 'at': command = event(read); break;
    default: throw new SyntaxError(`no command: ${word}`);
  }
  read.end();
  return command;
};
