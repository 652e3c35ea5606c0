'use strict';

// Texts: what is asked of one character, and columns of a width.

const DIGITS = '0123456789';
const LETTERS = 'abcdefghijklmnopqrstuvwxyzABCDEFGHIJKLMNOPQRSTUVWXYZ_';

exports.isDigit = character => character !== '' && DIGITS.includes(character);
exports.isLetter = character => character !== '' && LETTERS.includes(character);
exports.isSpace = character => character === ' ' || character === '\t';

function filler(text, width) {
  return ' '.repeat(Math.max(0, width - text.length));
}

exports.left = (text, width) => text + filler(text, width);
exports.right = (text, width) => filler(text, width) + text;

// The words for so many things of a kind.
exports.counted = (count, thing) => `${count} ${thing}${count === 1 ? '' : 's'}`;
