'use strict';

// Splits the text of a formula into tokens: objects with a kind, a text and the place where they start.

const isDigit = character => character >= '0' && character <= '9';
const isLetter = character => (character >= 'a' && character <= 'z') || (character >= 'A' && character <= 'Z') || character === '_';
const isInName = character => isLetter(character) || isDigit(character);

// The place behind all characters from a place on that are such.
function past(text, at, isSuch) {
  let end = at;
  while (end < text.length && isSuch(text[end])) end++;
  return end;
}

// Each of these gives the place behind what begins at a place, or that place where nothing of the kind does.

const blank = (text, at) => past(text, at, character => character === ' ' || character === '\t');

const comment = (text, at) => text.slice(at, at + 2) === '//' ? past(text, at, character => character !== '\n') : at;

const name = (text, at) => at < text.length && isLetter(text[at]) ? past(text, at, isInName) : at;

function number(text, at) {
  const end = text[at] === '0' ? at + 1 : past(text, at, isDigit);
  return end < text.length && isInName(text[end]) ? at : end;
}

function quoted(text, at) {
  if (text[at] !== '"') return at;
  let end = at + 1;
  while (end < text.length && text[end] !== '"') {
    if (text[end] === '\\' && !['"', '\\', 'n'].includes(text[++end])) return at;
    end++;
  }
  return end < text.length ? end + 1 : at;
}

const two = ['<=', '>=', '==', '!=', '&&', '||', '**'];

function sign(text, at) {
  if (two.includes(text.slice(at, at + 2))) return at + 2;
  return '-+*/%<>()?:,!'.includes(text[at]) ? at + 1 : at;
}

const kinds = [
  { kind: 'blank', end: blank },
  { kind: 'comment', end: comment },
  { kind: 'number', end: number },
  { kind: 'name', end: name },
  { kind: 'text', end: quoted },
  { kind: 'sign', end: sign },
];

const escapes = { n: '\n', '"': '"', '\\': '\\' };

function refusal(message, at) {
  const error = new SyntaxError(`${message} at ${at}`);
  error.at = at;
  return error;
}

// The token of the first kind that begins at a place, or null.
function tokenAt(text, at) {
  for (const entry of kinds) {
    const end = entry.end(text, at);
    if (end > at) return { kind: entry.kind, text: text.slice(at, end), at };
  }
  return null;
}

// All tokens of a text but blanks and comments, and one for its end.
function tokens(text, keep = token => token.kind !== 'blank' && token.kind !== 'comment') {
  const found = [];
  let at = 0;
  while (at < text.length) {
    const token = tokenAt(text, at);
    if (!token) throw refusal(`no token`, at);
    at += token.text.length;
    if (keep(token)) found.push(token);
  }
  found.push({ kind: 'end', text: '', at });
  return found;
}

// What the token of a text stands for.
function unquoted(token) {
  let out = '';
  for (let i = 1; i < token.text.length - 1; i++) {
    const character = token.text[i];
    out += character === '\\' ? escapes[token.text[++i]] : character;
  }
  return out;
}

exports.name = name;
exports.refusal = refusal;
exports.tokens = tokens;
exports.unquoted = unquoted;
