// Comparison 1: what is done to both sides before their records are compared, and the kinds of difference that docs/DIFFERENCES.md lists.
// A kind says exactly what separates the two: it changes the module as read, our records or the compiler's, and afterwards they must be equal.
'use strict';
const { record, copy, walk, map } = require('./words.js');
const { form, isHeading, HEADING, SORT } = require('./forms.js');

const LISTS = new Set([1, 3, 33, 39]);
const bodyOf = (c) => c.children[c.children.length - 1];
const equal = (x, y) => x.kind === y.kind && x.payload === y.payload && x.children.every((c, i) => equal(c, y.children[i]));
const contains = (r, test) => test(r) || r.children.some((c) => contains(c, test));
const names = (symbol) => (r) => (r.kind === 9 || r.kind === 18 || r.kind === 27) && r.payload === symbol;
const rename = (r, from, to) => map(r, (x) => (names(from)(x) ? record(x.kind, to, ...x.children) : x));

// Changes every list of statements, innermost first; `change` has the statements and answers others.
function inLists(module, change) {
  return map(module, (r) => {
    if (!LISTS.has(r.kind)) return r;
    const head = r.kind === 1 ? [r.children[0]] : [];
    const made = record(r.kind, 0, ...head, ...change(r.children.slice(head.length)));
    made.payload = made.children.length - head.length;
    return made;
  });
}

// Changes every class that stands in a class statement, innermost first.
function inStatements(module, change) {
  return map(module, (r) => (r.kind === 4 ? record(4, r.payload, change(r.children[0])) : r));
}

function withElements(c, elements) {
  return record(26, c.payload, ...c.children.slice(0, -1), record(29, elements.length, ...elements));
}

const isConstructor = (e) => e.kind === 30 && (e.payload & 2) !== 0;
const hasCode = (e) => e.kind === 30 && (e.payload & 4) !== 0;

// An element without its decorators; `parts` says which: its own, its parameters', or both.
function stripped(e, parts = { own: true, parameters: true }) {
  const bare = (x) => record(x.kind, x.payload, record(28, 0), ...x.children.slice(1));
  const made = parts.own && e.kind !== 33 ? bare(e) : copy(e);
  if (!parts.parameters) return made;
  return record(made.kind, made.payload, ...made.children.map((x) => (x.kind === 36 ? record(36, x.payload, ...x.children.map(bare)) : x)));
}

function sortOf(e) {
  const first = hasCode(e) && e.children[3].children[0];
  const x = first && first.kind === 2 ? first.children[0] : null;
  return x && x.kind === 25 && isHeading(x.payload >> 8) ? (x.payload >> 8) - HEADING : 0;
}

const isMemberCall = (s) => s.kind === 2 && s.children[0].kind === 22 && s.children[0].payload === 4;
const callOf = (s) => ({ array: s.children[0].children[0], prefix: s.children[0].children[1], name: s.children[0].children[2] });

// The static block that member calls go to beside a private-in test.
const isCallBlock = (e) => e.kind === 33 && e.children.length > 0 && e.children.every(isMemberCall);
const sideOf = (s) => (callOf(s).prefix.kind === 24 ? 0 : 1);
const symbolOf = (s) => (sideOf(s) ? callOf(s).prefix : callOf(s).prefix.children[0]).payload;

// The sides of the decorated members, 1 for static, of the class statement with that symbol as id; a fresh symbol is a nameless class's.
function sidesOf(read, symbol) {
  const isDecorated = (e) => e.children[0].payload > 0 || e.children.some((x) => x.kind === 36 && x.children.some((p) => p.children[0].payload > 0));
  let sides = [];
  walk(read, (r) => {
    if (r.kind !== 4) return;
    const c = r.children[0];
    const isNamed = (c.payload & 1) !== 0;
    if (isNamed ? c.children[1].payload !== symbol : symbol < read.children[0].payload) return;
    sides = bodyOf(c).children.filter((e) => e.kind !== 33 && !isConstructor(e) && isDecorated(e)).map((e) => e.payload & 1);
  });
  return sides;
}

// A statement of rule 8: { symbol, alias, class }, or null.
function letOf(s) {
  if (s.kind !== 5) return null;
  const value = s.children[0];
  const inner = value.kind === 18 ? value.children[0] : value;
  if (inner.kind !== 20) return null;
  return { symbol: s.payload, alias: value.kind === 18 ? value.payload : null, class: inner.children[0] };
}

// A statement of rule 7: { symbol, alias, call }, or null.
function assignmentOf(s) {
  if (s.kind !== 2 || s.children[0].kind !== 18) return null;
  const outer = s.children[0];
  const value = outer.children[0];
  const call = value.kind === 18 ? value.children[0] : value;
  if (call.kind !== 22 || call.payload !== 2) return null;
  return { symbol: outer.payload, alias: value.kind === 18 ? value.payload : null, call };
}

// The symbol that a static block assigns `this` to, and nothing else; or null.
function aliasOf(e) {
  if (e.kind !== 33 || e.children.length !== 1 || e.children[0].kind !== 2) return null;
  const x = e.children[0].children[0];
  return x.kind === 18 && x.children[0].kind === 15 ? x.payload : null;
}

// The class that a statement declares, or null.
function classAt(s) {
  const l = s ? letOf(s) : null;
  return l ? l.class : s && s.kind === 4 ? s.children[0] : null;
}

const letStatement = (symbol, alias, c) => {
  const value = record(20, 0, c);
  return record(5, symbol, alias === null ? value : record(18, alias, value));
};
const assignment = (symbol, alias, call) => record(2, 0, record(18, symbol, alias === null ? call : record(18, alias, call)));

// Each decorated class of a list: the let at `at`, its assignment at `end`, the statements between them.
function* decoratedClasses(statements) {
  for (let at = 0; at < statements.length; at += 1) {
    const l = letOf(statements[at]);
    if (l) {
      let end = at + 1;
      while (end < statements.length && isMemberCall(statements[end])) end += 1;
      const a = end < statements.length ? assignmentOf(statements[end]) : null;
      if (a && a.symbol === l.symbol) yield { at, end, let: l, assignment: a };
    }
  }
}

// The compiler erases types. The same records are left out of ours: classes that are declare, methods and constructors without code, abstract accessors.
function erase(module) {
  return map(inLists(module, (statements) => statements.filter((s) => s.kind !== 4 || !(s.children[0].payload & 2))), (r) => {
    if (r.kind !== 29) return r;
    const elements = r.children.filter((e) => (e.kind !== 30 || hasCode(e)) && e.kind !== 32);
    return record(29, elements.length, ...elements);
  });
}

// Symbols by first use; the 40 holds their number.
function renumber(module) {
  const order = new Map();
  const made = map(module, copy);
  walk(made, (r) => {
    if (![5, 6, 7, 9, 18, 27].includes(r.kind)) return;
    if (!order.has(r.payload)) order.set(r.payload, order.size);
    r.payload = order.get(r.payload);
  });
  made.children[0].payload = order.size;
  return made;
}

// The kinds of difference, under their names in docs/DIFFERENCES.md. `read` changes the module as read, which is then rewritten; `ours` and `theirs`
// change the rewritten records and the compiler's; `reorders` says that calls are made in another order. They are applied in the order in which they
// stand; the numbers are those of docs/DIFFERENCES.md.
const KINDS = {
  // 6: the compiler's alias stands for the class in its heritage and decorators, too, and is made for a use in a type.
  'alias-outside-body': {
    theirs: (module) => inLists(module, (statements) => {
      const made = statements.slice();
      for (const { at, end, let: l, assignment: k } of decoratedClasses(statements)) {
        if (l.alias !== null) {
          const back = (r) => rename(r, l.alias, l.symbol);
          const elements = bodyOf(l.class).children.map((e) => (isCallBlock(e) ? back(e) : e));
          const entries = k.call.children[0].children.map((e) => (e.kind === 23 ? e : back(e)));
          const used = [...elements, ...entries].some((e) => contains(e, names(l.alias)));
          const c = record(26, l.class.payload, ...l.class.children.slice(0, -1).map(back), record(29, elements.length, ...elements));
          made[at] = letStatement(l.symbol, used ? l.alias : null, c);
          for (let i = at + 1; i < end; i += 1) made[i] = back(made[i]);
          made[end] = assignment(l.symbol, used ? l.alias : null, record(22, 2, record(16, entries.length, ...entries), k.call.children[1]));
        }
      }
      return made;
    }),
  },

  // 1: the compiler puts the calls of instance members first. Ours must stand in the order of the elements read.
  'member-order': {
    reorders: true,
    ours: (module, { read }) => inLists(module, (statements) => {
      const made = [];
      for (let i = 0; i < statements.length;) {
        let end = i;
        while (end < statements.length && isMemberCall(statements[end])) end += 1;
        const run = statements.slice(i, end);
        const inOrder = run.length === 0 || sidesOf(read, symbolOf(run[0])).join() === run.map(sideOf).join();
        made.push(...(inOrder ? [...run.filter((s) => !sideOf(s)), ...run.filter(sideOf)] : run));
        if (end < statements.length) made.push(statements[end]);
        i = end + 1;
      }
      return made;
    }),
  },

  // 2: beside a private-in test in a member's decorator the compiler keeps the class assignment.
  'lost-assignment': {
    ours: innerIsClass,
    theirs: (module) => inLists(module, (statements) => {
      const made = statements.slice();
      for (const k of [...decoratedClasses(statements)].reverse()) {
        const last = bodyOf(k.let.class).children.at(-1);
        if (last && isCallBlock(last)) keepStatement(made, k, k.let.class);
      }
      return made;
    }),
  },

  // 3: the compiler's constructor is the one with code.
  'codeless-constructor': {
    read: (module) => inStatements(module, (c) => withElements(c, bodyOf(c).children.filter((e) => !isConstructor(e) || hasCode(e)))),
  },

  // 4: the compiler has no call for a method without code.
  'codeless-member': {
    read: (module) => inStatements(module, (c) => withElements(c, bodyOf(c).children.map((e) => (
      e.kind === 30 && !hasCode(e) && !isConstructor(e) ? stripped(e) : e)))),
  },

  // 9: the compiler copies any literal key, and `this`.
  'copied-key': {
    ours: (module, { tables }) => {
      const keys = new Map();
      const isCopied = (r) => r.kind === 15 || (r.kind === 8 && /^(true|false|[\d.].*[^n]|\d)$/.test(tables.atoms[r.payload]));
      const bare = map(module, (r) => {
        if ((r.kind !== 30 && r.kind !== 31) || r.children[1].kind !== 18 || !isCopied(r.children[1].children[0])) return r;
        keys.set(r.children[1].payload, r.children[1].children[0]);
        return record(r.kind, r.payload, r.children[0], r.children[1].children[0], ...r.children.slice(2));
      });
      return map(bare, (r) => (r.kind === 9 && keys.has(r.payload) ? copy(keys.get(r.payload)) : r));
    },
  },

  // 15: a computed key of a member that has only parameters decorated: the compiler's call names a variable that is neither declared nor assigned.
  'undeclared-key': {
    ours: (module) => {
      const keys = new Set();
      walk(module, (r) => {
        if (r.kind !== 2 || !isMemberCall(r) || callOf(r).name.kind !== 9) return;
        if (callOf(r).array.children.every((e) => e.kind === 23)) keys.add(callOf(r).name.payload);
      });
      return map(module, (r) => {
        if ((r.kind !== 30 && r.kind !== 31) || r.children[1].kind !== 18 || !keys.has(r.children[1].payload)) return r;
        return record(r.kind, r.payload, r.children[0], r.children[1].children[0], ...r.children.slice(2));
      });
    },
  },

  // 5: the compiler has one call for a getter and a setter, from the first that is decorated itself, with the setter's parameter.
  'joined-accessors': {
    reorders: true,
    read: (module) => inStatements(module, (c) => {
      const elements = bodyOf(c).children;
      return withElements(c, elements.map((e) => {
        const pair = accessorPair(elements, e);
        if (!pair) return e;
        if (!pair.decorated) return stripped(e, { parameters: true });
        return pair.decorated === e ? e : stripped(e, { own: true });
      }));
    }),
    ours: (module, { read }) => {
      const pairs = [];
      walk(read, (r) => {
        if (r.kind !== 29) return;
        for (const e of r.children) {
          const pair = accessorPair(r.children, e);
          const isFirst = pair && r.children.indexOf(pair.decorated) < r.children.indexOf(pair.setter);
          if (pair && pair.decorated === e && pair.setter && pair.setter !== e) pairs.push({ key: textOf(e.children[1]), isFirst });
        }
      });
      const isSame = (x, y) => textOf(x.name) === textOf(y.name) && equal(x.prefix, y.prefix);
      const isParameters = (s) => callOf(s).array.children.every((e) => e.kind === 23);
      return inLists(module, (statements) => statements.flatMap((s, i) => {
        const pair = isMemberCall(s) && pairs.find((p) => p.key !== null && p.key === textOf(callOf(s).name));
        const j = statements.findIndex((x, k) => pair && k !== i && isMemberCall(x) && isSame(callOf(x), callOf(s)));
        if (j < 0 || isParameters(s) !== ((i < j) !== pair.isFirst)) return [s];
        if (isParameters(s)) return [];
        const joined = [...callOf(s).array.children, ...callOf(statements[j]).array.children];
        return [record(2, 0, record(22, 4, record(16, joined.length, ...joined), ...s.children[0].children.slice(1)))];
      }));
    },
  },

  // 7: the compiler has no block that assigns the alias before static values and blocks.
  'alias-block': {
    ours: (module, { aliases }) => inLists(module, (statements) => statements.map((s) => {
      const c = classAt(s);
      const alias = c && bodyOf(c).children.length > 0 ? aliasOf(bodyOf(c).children[0]) : null;
      if (!aliases.has(alias)) return s;
      const without = withElements(c, bodyOf(c).children.slice(1));
      return s.kind === 4 ? record(4, s.payload, without) : letStatement(s.payload, alias, without);
    })),
  },

  // 8: the compiler makes no alias for a class that has only parameters decorated: inside the class its name is the class's own.
  'no-alias-for-parameters': {
    ours: (module) => inLists(module, (statements) => {
      const made = statements.slice();
      for (const { at, end, let: l, assignment: k } of decoratedClasses(statements)) {
        if (l.class.payload & 1 && k.call.children[0].children.every((e) => e.kind === 23)) {
          const inner = l.class.children[1].payload;
          const own = (r) => (k.alias === null ? r : rename(r, k.alias, inner));
          const elements = bodyOf(l.class).children.map(own);
          const hasBlock = k.alias !== null && l.alias === null;
          const heritage = l.class.children.slice(0, -1).map((r) => rename(r, l.symbol, inner));
          const c = record(26, l.class.payload, ...heritage, record(29, elements.length, ...elements));
          made[at] = letStatement(l.symbol, null, hasBlock ? withElements(c, elements.slice(1)) : c);
          made[end] = assignment(l.symbol, null, k.alias === null ? k.call : rename(k.call, k.alias, l.symbol));
        }
      }
      return made;
    }),
  },

  // 11: the compiler drops the decorators of members with private names.
  'private-name': {
    read: (module) => inStatements(module, (c) => withElements(c, bodyOf(c).children.map((e) => (
      e.kind !== 33 && e.children[1].kind === 35 ? stripped(e) : e)))),
  },

  // 12: decorators that stay in place: JavaScript has none, and the compiler drops them.
  'left-decorators': {
    ours: (module) => map(module, (r) => (r.kind === 28 ? record(28, 0) : r)),
  },

  // 13: the compiler looks for private-in tests in members' decorators only.
  'private-in-class': {
    ours: innerIsClass,
    theirs: (module) => inLists(module, (statements) => {
      const made = statements.slice();
      for (const k of [...decoratedClasses(statements)].reverse()) {
        if (contains(k.assignment.call, (r) => r.kind === 19)) {
          const calls = statements.slice(k.at + 1, k.end);
          const elements = bodyOf(k.let.class).children;
          keepStatement(made, k, withElements(k.let.class, [...elements, record(33, calls.length, ...calls)]));
        }
      }
      return made;
    }),
  },

  // 16: the compiler assigns the computed key of a decorated member of a class expression to a variable that nothing reads. In a parameter's default
  // that variable makes it move the default into the code.
  'idle-key': {
    theirs: (module) => {
      const bare = map(module, (r) => {
        const key = r.kind === 30 || r.kind === 31 ? r.children[1] : null;
        if (!key || key.kind !== 18 || contains(module, (x) => x.kind === 9 && x.payload === key.payload)) return r;
        return record(r.kind, r.payload, r.children[0], key.children[0], ...r.children.slice(2));
      });
      return map(bare, defaultsBack);
    },
  },

  // 10: the compiler gives a nameless class a name that nothing uses. Where rule 9 leaves a nameless class its statement, its calls have nothing to name.
  'default-name': {
    ours: (module) => inLists(module, (statements) => statements.map((s) => {
      const c = s.kind === 4 && !(s.children[0].payload & 1) ? s.children[0] : null;
      const last = c && bodyOf(c).children.at(-1);
      if (!last || !isCallBlock(last)) return s;
      return record(4, s.payload, record(26, c.payload + 1, c.children[0], record(27, symbolOf(last.children[0])), ...c.children.slice(1)));
    })),
    theirs: (module, { read }) => {
      const isNameless = contains(read, (r) => r.kind === 4 && !(r.children[0].payload & 1));
      return inLists(module, (statements) => statements.map((s) => {
        const c = classAt(s);
        const isDefault = s.kind === 4 ? s.payload === 2 : statements.some((x) => x.kind === 7 && x.payload === s.payload);
        if (!isNameless || !c || !isDefault || !(c.payload & 1)) return s;
        const id = c.children[1].payload;
        if (contains(module, (r) => r.kind !== 27 && names(id)(r))) return s;
        const without = record(26, c.payload - 1, c.children[0], ...c.children.slice(2));
        return s.kind === 4 ? record(4, 2, without) : letStatement(s.payload, letOf(s).alias, without);
      }));
    },
  },

  // 15: the same for a literal key under a type assertion, which the words don't have.
  'asserted-key': {
    theirs: (module) => inLists(module, (statements) => statements.map((s, i) => {
      const l = isMemberCall(s) && callOf(s).name.kind === 9 ? classAt(statements[i - 1]) : null;
      if (!l || contains(module, (r) => r.kind === 18 && r.payload === callOf(s).name.payload)) return s;
      const key = bodyOf(l).children[0].children[1];
      const [array, prefix, , descriptor] = s.children[0].children;
      return record(2, 0, record(22, 4, array, prefix, copy(key), descriptor));
    })),
  },

  // 14: the compiler drops what a constructor is decorated with; the program refuses it (6).
  'decorated-constructor': {
    read: (module) => map(module, (r) => (isConstructor(r) ? stripped(r, { own: true }) : r)),
  },
};

// The decorated class at `k` of a list becomes a class statement again, without its calls and assignment; its export goes with it. The symbol inside the
// class is the class's again.
function keepStatement(statements, k, c) {
  const behind = statements[k.end + 1];
  const isExport = behind && (behind.kind === 6 || behind.kind === 7) && behind.payload === k.let.symbol;
  const inner = k.let.class.payload & 1 ? k.let.class.children[1].payload : null;
  const way = isExport ? behind.kind - 5 : 0;
  const kept = record(4, way, inner === null ? c : rename(c, inner, k.let.symbol));
  statements.splice(k.at, k.end - k.at + (isExport ? 2 : 1), kept);
}

// The statement `if (p === void 0) { p = value }`: { symbol, value }, or null.
function movedDefault(s) {
  const x = s && s.kind === 2 ? s.children[0] : null;
  if (!x || x.kind !== 25 || x.payload !== 256 * form('if') + 2) return null;
  const [test, branch] = x.children;
  const set = branch.children[1].children[0];
  const isTest = test.kind === 25 && test.payload === 256 * form('binary ===') + 2 && test.children[0].kind === 9 && test.children[1].kind === 14;
  if (!isTest || !set || set.kind !== 2 || set.children[0].kind !== 18 || set.children[0].payload !== test.children[0].payload) return null;
  return { symbol: set.children[0].payload, value: set.children[0].children[0] };
}

// A function or method whose parameters have the defaults again that were moved into its code.
function defaultsBack(r) {
  const at = r.children.findIndex((x) => x.kind === 39);
  if ((r.kind !== 30 && r.kind !== 21) || at < 0) return r;
  const [heading, ...statements] = r.children[at].children;
  const symbols = heading ? heading.children[0].children.map((x) => x.payload) : [];
  const parameters = [...r.children[at - 1].children];
  for (let moved = movedDefault(statements[0]); moved && symbols.includes(moved.symbol); moved = movedDefault(statements[0])) {
    const i = symbols.indexOf(moved.symbol);
    parameters[i] = record(37, 1, parameters[i].children[0], moved.value);
    statements.shift();
  }
  const code = heading ? [heading, ...statements] : [];
  return record(r.kind, r.payload, ...r.children.slice(0, at - 1), record(36, parameters.length, ...parameters), record(39, code.length, ...code));
}

// Rule 9 leaves a decorated class its statement with an inner symbol as id, while calls and uses name the class's own: the two are made one.
function innerIsClass(module, { innerOf }) {
  let made = module;
  for (const [inner, symbol] of innerOf) {
    if (contains(module, (r) => r.kind === 4 && r.children[0].payload & 1 && r.children[0].children[1].payload === inner)) made = rename(made, inner, symbol);
  }
  return made;
}

// An inner symbol is spelled like its class, as in the Rust, so that in JavaScript it captures the class's name in the class's heritage.
function captured(module) {
  return inLists(module, (statements) => statements.map((s) => {
    const l = letOf(s);
    if (!l || !(l.class.payload & 1)) return s;
    const inner = l.class.children[1].payload;
    const heritage = l.class.children.slice(0, -1).map((r) => rename(r, l.symbol, inner));
    return letStatement(l.symbol, l.alias, record(26, l.class.payload, ...heritage, bodyOf(l.class)));
  }));
}

// What a key, or a call's name, is for the compiler when it looks for pairs of accessors; null for a computed one.
function textOf(k) {
  if (k.kind === 8) return `8:${k.payload}`;
  if (k.kind === 11) return `11:${k.payload}`;
  return [10, 12, 34].includes(k.kind) ? `10:${k.payload}` : null;
}

// The getter and the setter that an accessor belongs to, and the first of them that has decorators of its own.
function accessorPair(elements, e) {
  const accessor = SORT.getter + SORT.setter;
  if (e.kind !== 30 || !(sortOf(e) & accessor)) return null;
  const same = elements.filter((x) => x === e || (x.kind === 30 && sortOf(x) & accessor && (x.payload & 1) === (e.payload & 1)
    && textOf(x.children[1]) !== null && textOf(x.children[1]) === textOf(e.children[1])));
  return { decorated: same.find((x) => x.children[0].payload > 0) || null, setter: same.find((x) => sortOf(x) & SORT.setter) || null };
}

module.exports = { KINDS, erase, renumber, captured };
