// Rewritten modules damaged on purpose, for a test of the comparisons: each must be seen.
'use strict';
const { build, flatten, copy, walk } = require('./words.js');

const isCall = (s) => s.kind === 2 && (s.children[0].kind === 22 || (s.children[0].kind === 18
  && (s.children[0].children[0].kind === 22 || s.children[0].children[0].kind === 18)));
const line = (r) => flatten(r).join(' ');

// The records of a module in the order of their words.
function all(module) {
  const found = [];
  walk(module, (r) => found.push(r));
  return found;
}

// Every damage of each sort, as { sort, words }: one call left out, two neighbouring calls swapped, two neighbouring decorators of a call swapped, the
// index of a parameter call one too high.
function damages(words) {
  const made = [];
  const module = build(words);
  const change = (sort, place, edit) => {
    const other = copy(module);
    edit(all(other)[place]);
    other.payload = other.children.length - 1;
    made.push({ sort, words: flatten(other) });
  };
  const setCount = (r) => { if (r.kind !== 1) r.payload = r.children.length; };
  all(module).forEach((r, place) => {
    r.children.forEach((c, i) => {
      const next = r.children[i + 1];
      if ([1, 3, 33, 39].includes(r.kind) && isCall(c)) {
        change('call left out', place, (x) => { x.children.splice(i, 1); setCount(x); });
        if (next && isCall(next) && line(next) !== line(c)) {
          change('calls swapped', place, (x) => { x.children.splice(i, 2, x.children[i + 1], x.children[i]); });
        }
      }
    });
    if (r.kind === 22) {
      const entries = r.children[0].children;
      entries.forEach((c, i) => {
        if (i + 1 < entries.length && line(c) !== line(entries[i + 1])) {
          change('decorators swapped', place, (x) => {
            const list = x.children[0].children;
            list.splice(i, 2, list[i + 1], list[i]);
          });
        }
      });
    }
    if (r.kind === 23) change('index one too high', place, (x) => { x.payload += 1; });
  });
  return made;
}

module.exports = { damages };
