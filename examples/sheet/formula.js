'use strict';

// Formulas, compiled to closures by the precedence of their operators.

const lexer = require('./tokens');

// How strongly an operator binds what stands on its left.
const strengths = {
  '?': 1,
  '||': 2, '&&': 3,
  '==': 4, '!=': 4,
  '<': 5, '<=': 5, '>': 5, '>=': 5,
  '+': 6, '-': 6,
  '*': 7, '/': 7, '%': 7,
  '**': 9,
};

const PREFIX = 8;

const operations = {
  '==': (a, b) => a === b,
  '!=': (a, b) => a !== b,
  '<': (a, b) => a < b,
  '<=': (a, b) => a <= b,
  '>': (a, b) => a > b,
  '>=': (a, b) => a >= b,
  '+': (a, b) => a + b,
  '-': (a, b) => a - b,
  '*': (a, b) => a * b,
  '%': (a, b) => a % b,
  '**': (a, b) => a ** b,
  '/'(a, b) {
    if (b === 0) throw new RangeError('division by zero');
    return (a - a % b) / b;
  },
};

// The functions that a formula may call, each with the list of its arguments.
const functions = {
  sum(values) {
    let total = 0;
    for (const value of values) total += value;
    return total;
  },
  greatest(values) {
    let most = values[0];
    for (let i = 1; i < values.length; i++) if (values[i] > most) most = values[i];
    return most;
  },
  length: values => String(values[0]).length,
  join: values => values.join(''),
};

// What is read of a formula: the tokens, the place among them, and the names met so far.
function reader(text) {
  const list = lexer.tokens(text);
  const names = [];
  let next = 0;

  const peek = () => list[next];
  const take = () => list[next++];
  const fail = (token, wanted = 'an operand') => {
    const what = token.kind === 'end' ? 'the end' : `"${token.text}"`;
    throw lexer.refusal(`${wanted} is wanted in place of ${what}`, token.at);
  };
  const expect = sign => {
    const token = take();
    if (token.text !== sign || token.kind !== 'sign') fail(token, `"${sign}"`);
  };
  const meet = name => {
    if (!names.includes(name)) names.push(name);
  };

  return { peek, take, fail, expect, meet, names };
}

function listOf(input) {
  const values = [];
  if (input.peek().text === ')') {
    input.take();
    return values;
  }
  do {
    values.push(expression(input, 0));
  } while (input.peek().text === ',' && input.take());
  input.expect(')');
  return values;
}

function operand(input) {
  const token = input.take();
  switch (token.kind) {
    case 'number': {
      const value = Number(token.text);
      return () => value;
    }
    case 'text': {
      const value = lexer.unquoted(token);
      return () => value;
    }
    case 'name':
      return named(input, token);
    case 'sign':
      if (token.text === '(') {
        const inner = expression(input, 0);
        input.expect(')');
        return inner;
      }
      if (token.text === '-' || token.text === '!') {
        const inner = expression(input, PREFIX);
        return token.text === '-' ? scope => -inner(scope) : scope => !inner(scope);
      }
    // falls through
    default:
      return input.fail(token);
  }
}

function named(input, token) {
  const name = token.text;
  if (input.peek().text !== '(') {
    input.meet(name);
    return scope => scope(name);
  }
  input.take();
  const values = listOf(input);
  const called = functions[name];
  if (typeof called !== 'function') throw lexer.refusal(`no function ${name}`, token.at);
  return scope => called(values.map(value => value(scope)));
}

function joined(input, sign, left) {
  const strength = strengths[sign];
  if (sign === '?') {
    const holds = expression(input, 0);
    input.expect(':');
    const fails = expression(input, strength - 1);
    return scope => (left(scope) ? holds(scope) : fails(scope));
  }
  const right = expression(input, sign === '**' ? strength - 1 : strength);
  if (sign === '&&') return scope => left(scope) && right(scope);
  if (sign === '||') return scope => left(scope) || right(scope);
  const operation = operations[sign];
  return scope => operation(left(scope), right(scope));
}

// An expression whose operators bind more strongly than `least`.
function expression(input, least) {
  let left = operand(input);
  for (;;) {
    const token = input.peek();
    const strength = token.kind === 'sign' ? strengths[token.text] : undefined;
    if (strength === undefined || strength <= least) return left;
    input.take();
    left = joined(input, token.text, left);
  }
}

// The function that works a formula out in a scope, and the names that it needs.
function compile(text) {
  const input = reader(text);
  const value = expression(input, 0);
  const rest = input.peek();
  if (rest.kind !== 'end') input.fail(rest, 'an operator');
  return { value, names: input.names };
}

exports.compile = compile;
exports.functions = functions;
