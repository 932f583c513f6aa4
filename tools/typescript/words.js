// Words and records: a module's words as a tree, a tree as words, and as the lines that the program reads and prints. Follows docs/FORMAT.md.
'use strict';

// How many children a record has.
function childCount(kind, payload) {
  switch (kind) {
    case 1: return payload + 1;
    case 2: case 4: case 5: case 18: case 19: case 20: case 23: case 24: return 1;
    case 3: case 16: case 22: case 28: case 29: case 33: case 36: case 39: return payload;
    case 17: return payload + 1;
    case 21: case 32: return 2;
    case 25: return payload & 255;
    case 26: return 2 + (payload & 1) + ((payload >> 2) & 1);
    case 30: return 3 + ((payload >> 2) & 1);
    case 31: return 2 + ((payload >> 1) & 1);
    case 37: return 1 + (payload & 1);
    default: return 0;
  }
}

function record(kind, payload, ...children) {
  return { kind, payload, children };
}

// Kinds whose payload is the number of their children; 1 has its 40 beside them.
const COUNTED = new Set([3, 16, 28, 29, 33, 36, 39]);

// The records of a list of [kind, payload], which must be one module and nothing behind it.
function build(words) {
  let place = 0;
  const next = () => {
    if (place >= words.length) throw new Error('the words end inside a record');
    const [kind, payload] = words[place];
    place += 1;
    const r = record(kind, payload);
    for (let n = childCount(kind, payload); n > 0; n -= 1) r.children.push(next());
    return r;
  };
  const module = next();
  if (place !== words.length) throw new Error(`${words.length - place} words left over`);
  return module;
}

function flatten(r, out = []) {
  out.push([r.kind, r.payload]);
  for (const c of r.children) flatten(c, out);
  return out;
}

function copy(r) {
  return record(r.kind, r.payload, ...r.children.map(copy));
}

function walk(r, visit, parents = []) {
  visit(r, parents);
  const below = parents.concat([r]);
  for (const c of r.children) walk(c, visit, below);
}

// A record rebuilt from its rebuilt children; counts follow.
function map(r, change) {
  const made = record(r.kind, r.payload, ...r.children.map((c) => map(c, change)));
  return change(recount(made));
}

function recount(r) {
  if (COUNTED.has(r.kind)) r.payload = r.children.length;
  if (r.kind === 1) r.payload = r.children.length - 1;
  if (r.kind === 17) r.payload = r.children.length - 1;
  return r;
}

const show = (words) => words.map(([k, p]) => `${k}:${p}`);

function parse(text) {
  return text.split(/\s+/).filter(Boolean).map((w) => {
    const m = /^(\d+):(\d+)$/.exec(w);
    if (!m) throw new Error(`no word: ${w}`);
    return [Number(m[1]), Number(m[2])];
  });
}

module.exports = { childCount, record, build, flatten, copy, walk, map, recount, show, parse };
