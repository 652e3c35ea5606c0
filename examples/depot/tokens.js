'use strict';

// The tokens of a line: words, numbers, texts in quotes, and signs.

const text = require('./text');

function endOf(line, start, holds) {
  let end = start;
  while (end < line.length && holds(line.charAt(end))) end++;
  return end;
}

function quoted(line, start) {
  const end = line.slice(start + 1).indexOf('"');
  if (end < 0) throw new SyntaxError('a text without an end');
  return { kind: 'text', value: line.slice(start + 1, start + 1 + end), end: start + end + 2 };
}

function tokenAt(line, start) {
  const first = line.charAt(start);
  if (text.isLetter(first)) {
    const end = endOf(line, start, character => text.isLetter(character) || text.isDigit(character));
    return { kind: 'word', value: line.slice(start, end), end };
  }
  if (text.isDigit(first)) {
    const end = endOf(line, start, character => text.isDigit(character) || character === '.');
    return { kind: 'number', value: line.slice(start, end), end };
  }
  if (first === '"') return quoted(line, start);
  return { kind: 'sign', value: first, end: start + 1 };
}

exports.tokensOf = line => {
  const tokens = [];
  let at = 0;
  for (;;) {
    at = endOf(line, at, text.isSpace);
    if (at === line.length || line.charAt(at) === '#') return tokens;
    const token = tokenAt(line, at);
    tokens.push(token);
    at = token.end;
  }
};
