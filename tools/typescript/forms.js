// The forms of 25 that this front end and this back end use. A form is opaque to the rewriter: it is these two files' own number for what the word
// form has no record for. Some forms stand for statements; such a 25 is the whole of an expression statement.
'use strict';

const BINARY = ['+', '-', '*', '/', '%', '**', '==', '!=', '===', '!==', '<', '<=', '>', '>=', '&&', '||', '??', '&', '|', '^', '<<', '>>', '>>>',
  'in', 'instanceof', ','];
const ASSIGNING = ['=', '+=', '-=', '*=', '/=', '%=', '**=', '&&=', '||=', '??=', '&=', '|=', '^=', '<<=', '>>=', '>>>='];
const PREFIX = ['!', '-', '+', '~', '++', '--', 'typeof', 'void', 'delete', 'await'];
const POSTFIX = ['++', '--'];

// Each form's name is its syntax; children are in source order.
const NAMES = [
  'member', // object, 10 name
  'element', // object, index
  'private member', // object, 10 name without '#'
  'new', // callee, arguments
  'conditional',
  'spread',
  'template', // 12 and expressions by turns
  'object', // properties
  'property', // 10 name, value
  'computed property', // key, value
  'object method', // 10 name, 21
  'named function', // 9 own name, 21
  'yield', // nothing or a value
  'return', // statement: nothing or a value
  'throw', // statement: a value
  'if', // statement: condition, 21 whose code is the branch, the same for else
  'function declaration', // statement: 9 name, 21
  ...BINARY.map((op) => `binary ${op}`),
  ...ASSIGNING.map((op) => `assign ${op}`),
  ...PREFIX.map((op) => `prefix ${op}`),
  ...POSTFIX.map((op) => `postfix ${op}`),
];

// A heading is the first statement of a function's or method's code: the symbols of its parameters, which 37 doesn't hold, and what sort of function
// it is, which 21 and 30 don't say. It is left out where there is nothing to say. Its form is HEADING plus the sum of these.
const HEADING = 256;
const SORT = { arrow: 1, async: 2, generator: 4, getter: 8, setter: 16, rest: 32 };

const numbers = new Map(NAMES.map((name, i) => [name, i + 1]));

function form(name) {
  const n = numbers.get(name);
  if (n === undefined) throw new Error(`no form: ${name}`);
  return n;
}

const nameOf = (n) => NAMES[n - 1];
const isHeading = (n) => n >= HEADING && n < HEADING + 64;

module.exports = { form, nameOf, isHeading, HEADING, SORT, BINARY, ASSIGNING };
