// The back end: a module's words as JavaScript again, with the spellings that the front end kept. Names of fresh symbols are invented here, and so are
// the 'var' lines that declare key symbols and aliases; the words have neither. A test tool.
'use strict';
const { build, walk } = require('./words.js');
const { nameOf, isHeading, HEADING, SORT } = require('./forms.js');

const DEFAULT = 1;
const KEY = 2;
const INNER = 3;
const ALIAS = 4;

// The names of the module's live decorated classes, in the order in which the rewriting leaves them: that in which they take their inner symbols.
function classesInOrder(read) {
  const found = [];
  const decorated = (r) => r.children[0].payload > 0;
  const visit = (r, parent) => {
    for (const c of r.children) visit(c, r);
    if (r.kind !== 26 || parent.kind !== 4 || (r.payload & 2) || !(r.payload & 1)) return;
    const elements = r.children[r.children.length - 1].children;
    const constructors = elements.filter((e) => e.kind === 30 && (e.payload & 2));
    if (decorated(r) || constructors.some((e) => e.children[2].children.some(decorated))) found.push(r.children[1].payload);
  };
  visit(read, null);
  return found;
}

// The spelling of every symbol: the front end's below S, invented ones above. An inner symbol has its class's own spelling, as the Rust gives it.
function spell(read, spellings, report, tables) {
  const all = spellings.slice();
  const taken = new Set([...spellings, ...tables.names]);
  const invent = (stem) => {
    let n = 1;
    while (taken.has(`${stem}_${n}`)) n += 1;
    taken.add(`${stem}_${n}`);
    return `${stem}_${n}`;
  };
  const classes = classesInOrder(read);
  let inner = 0;
  for (const [sort, symbol] of report.slice().sort((a, b) => a[1] - b[1])) {
    if (symbol !== all.length) throw new Error(`the report has no word for the fresh symbol ${all.length}`);
    if (sort === INNER) all.push(spellings[classes[inner++]]);
    else if (sort === DEFAULT) all.push(invent('default'));
    else if (sort === KEY) all.push(invent('key'));
    else if (sort === ALIAS) all.push(invent('alias'));
    else throw new Error(`the report has a word of sort ${sort}`);
  }
  return all;
}

// Which list of statements declares each key symbol and alias: the innermost that encloses all its uses.
function declarations(module, report) {
  const wanted = new Set(report.filter(([sort]) => sort === KEY || sort === ALIAS).map(([, symbol]) => symbol));
  const around = new Map();
  walk(module, (r, parents) => {
    if ((r.kind !== 9 && r.kind !== 18) || !wanted.has(r.payload)) return;
    const lists = parents.filter((p) => [1, 33, 39].includes(p.kind));
    const before = around.get(r.payload);
    around.set(r.payload, before ? before.filter((p) => lists.includes(p)) : lists);
  });
  const lines = new Map();
  for (const [symbol, lists] of around) {
    const list = lists[lists.length - 1];
    lines.set(list, (lines.get(list) || []).concat(symbol));
  }
  return lines;
}

// `read` are the records of the module as read, `words` those to print, `report` the fresh symbols as [sort, symbol].
function print(words, { read, spellings, tables, report }) {
  const module = build(words);
  const names = spell(read, spellings, report, tables);
  const vars = declarations(module, report);

  const symbol = (n) => {
    if (n >= names.length) throw new Error(`no spelling for the symbol ${n}`);
    return names[n];
  };
  const name = (n) => tables.names[n];
  const text = (n) => JSON.stringify(name(n));
  const indent = (s) => s.replace(/^(?=.)/gm, '    ');
  const list = (rs) => rs.map(argument).join(', ');

  function body(r, rs = r.children) {
    const own = vars.has(r) ? [`var ${vars.get(r).map(symbol).join(', ')};`] : [];
    return [...own, ...rs.map(statement)].join('\n');
  }
  const braces = (s) => (s === '' ? '{ }' : `{\n${indent(s)}\n}`);

  function statement(r) {
    const c = r.children;
    switch (r.kind) {
      case 2: return expressionStatement(c[0]);
      case 3: return braces(body(r));
      case 4: return (c[0].payload & 2) ? '' : ['', 'export ', 'export default '][r.payload] + classOf(c[0]);
      case 5: return `let ${symbol(r.payload)} = ${argument(c[0])};`;
      case 6: return `export { ${symbol(r.payload)} };`;
      case 7: return `export default ${symbol(r.payload)};`;
      default: throw new Error(`no statement: ${r.kind}:${r.payload}`);
    }
  }

  function expressionStatement(e) {
    const c = e.children;
    switch (e.kind === 25 ? nameOf(e.payload >> 8) : '') {
      case 'return': return c.length ? `return ${bare(c[0])};` : 'return;';
      case 'throw': return `throw ${bare(c[0])};`;
      case 'if': return `if (${bare(c[0])}) ${braces(body(c[1].children[1]))}${c[2] ? ` else ${braces(body(c[2].children[1]))}` : ''}`;
      case 'function declaration': return functionOf(c[1], symbol(c[0].payload));
      default: {
        const s = bare(e);
        return /^(\{|function|async function|class|let\b)/.test(s) ? `(${s});` : `${s};`;
      }
    }
  }

  function classOf(r) {
    const c = r.children;
    const id = r.payload & 1 ? ` ${symbol(c[1].payload)}` : '';
    const heritage = r.payload & 4 ? ` extends ${expression(c[c.length - 2])}` : '';
    const elements = c[c.length - 1].children.map(element).filter(Boolean);
    return `class${id}${heritage} ${braces(elements.join('\n'))}`;
  }

  const key = (r) => (r.kind === 34 ? name(r.payload) : r.kind === 35 ? `#${name(r.payload)}` : `[${argument(r)}]`);

  // A method without code and an abstract accessor are types: they print as nothing.
  function element(r) {
    const c = r.children;
    const isStatic = r.payload & 1 && r.kind !== 33 ? 'static ' : '';
    switch (r.kind) {
      case 30: return r.payload & 4 ? isStatic + method(c[2], c[3], r.payload & 2 ? 'constructor' : key(c[1])) : '';
      case 31: return `${isStatic}${key(c[1])}${r.payload & 2 ? ` = ${argument(c[2])}` : ''};`;
      case 32: return '';
      case 33: return `static ${braces(body(r))}`;
      default: throw new Error(`no element: ${r.kind}:${r.payload}`);
    }
  }

  function headingOf(code) {
    const first = code.children[0];
    const e = first && first.kind === 2 ? first.children[0] : null;
    if (!e || e.kind !== 25 || !isHeading(e.payload >> 8)) return { sort: 0, parameters: [], rest: code.children };
    return { sort: (e.payload >> 8) - HEADING, parameters: e.children.map((p) => symbol(p.payload)), rest: code.children.slice(1) };
  }

  function signature(parameters, h) {
    if (parameters.children.length !== h.parameters.length) throw new Error('a heading that names other parameters');
    const last = h.parameters.length - 1;
    return `(${parameters.children.map((p, i) => {
      const spread = h.sort & SORT.rest && i === last ? '...' : '';
      return spread + h.parameters[i] + (p.payload & 1 ? ` = ${argument(p.children[1])}` : '');
    }).join(', ')})`;
  }

  function method(parameters, code, k) {
    const h = headingOf(code);
    const words = [[SORT.async, 'async '], [SORT.generator, '*'], [SORT.getter, 'get '], [SORT.setter, 'set ']];
    return words.filter(([bit]) => h.sort & bit).map(([, w]) => w).join('') + k + signature(parameters, h) + ' ' + braces(body(code, h.rest));
  }

  function functionOf(r, id) {
    const [parameters, code] = r.children;
    const h = headingOf(code);
    const asynchronous = h.sort & SORT.async ? 'async ' : '';
    if (h.sort & SORT.arrow) return `${asynchronous}${signature(parameters, h)} => ${braces(body(code, h.rest))}`;
    return `${asynchronous}function${h.sort & SORT.generator ? '*' : ''}${id ? ` ${id}` : ''}${signature(parameters, h)} ${braces(body(code, h.rest))}`;
  }

  // An expression where any operand may stand, where an argument may, and with no parentheses around it.
  const TIGHT = ['member', 'element', 'private member', 'spread', 'template', 'property', 'computed property', 'object method'];
  const isTight = (r) => (r.kind === 25 ? TIGHT.includes(nameOf(r.payload >> 8)) : ![11, 14, 18, 19, 20, 21].includes(r.kind));
  const expression = (r) => (isTight(r) ? bare(r) : `(${bare(r)})`);
  const argument = (r) => (r.kind === 25 && nameOf(r.payload >> 8) === 'binary ,' ? expression(r) : bare(r));
  const operand = (r) => (r.kind === 11 ? bare(r) : expression(r));

  function bare(r) {
    const c = r.children;
    switch (r.kind) {
      case 8: return tables.atoms[r.payload];
      case 9: return symbol(r.payload);
      case 10: return text(r.payload);
      case 11: return String(r.payload);
      case 12: return `\`${template(r.payload)}\``;
      case 13: return 'null';
      case 14: return 'void 0';
      case 15: return 'this';
      case 16: return `[${list(c)}]`;
      case 17: return `${expression(c[0])}(${list(c.slice(1))})`;
      case 18: return `${symbol(r.payload)} = ${argument(c[0])}`;
      case 19: return `#${name(r.payload)} in ${expression(c[0])}`;
      case 20: return classOf(c[0]);
      case 21: return functionOf(r);
      case 22: return `__decorate(${list(c)})`;
      case 23: return `__param(${r.payload}, ${argument(c[0])})`;
      case 24: return `${expression(c[0])}.prototype`;
      case 25: return otherOf(r);
      default: throw new Error(`no expression: ${r.kind}:${r.payload}`);
    }
  }

  const template = (n) => name(n).replace(/[\\`]|\$\{/g, '\\$&');

  function otherOf(r) {
    const c = r.children;
    const form = nameOf(r.payload >> 8);
    if (form === undefined) throw new Error(`no form ${r.payload >> 8}`);
    const [word, op] = form.split(' ');
    switch (form) {
      case 'member': return `${expression(c[0])}.${name(c[1].payload)}`;
      case 'element': return `${expression(c[0])}[${bare(c[1])}]`;
      case 'private member': return `${expression(c[0])}.#${name(c[1].payload)}`;
      case 'new': return `new ${c[0].kind === 9 ? bare(c[0]) : `(${bare(c[0])})`}(${list(c.slice(1))})`;
      case 'conditional': return `${operand(c[0])} ? ${operand(c[1])} : ${operand(c[2])}`;
      case 'spread': return `...${argument(c[0])}`;
      case 'template': return `\`${c.map((x, i) => (i % 2 ? `\${${bare(x)}}` : template(x.payload))).join('')}\``;
      case 'object': return `{ ${list(c)} }`;
      case 'property': return `${text(c[0].payload)}: ${argument(c[1])}`;
      case 'computed property': return `[${argument(c[0])}]: ${argument(c[1])}`;
      case 'object method': return method(c[1].children[0], c[1].children[1], text(c[0].payload));
      case 'named function': return functionOf(c[1], symbol(c[0].payload));
      case 'yield': return c.length ? `yield ${operand(c[0])}` : 'yield';
      default:
    }
    if (word === 'binary') return `${operand(c[0])} ${op} ${operand(c[1])}`;
    if (word === 'assign') return `${expression(c[0])} ${op} ${argument(c[1])}`;
    if (word === 'prefix') return `${op} ${operand(c[0])}`;
    if (word === 'postfix') return `${operand(c[0])} ${op}`;
    throw new Error(`${form} is no expression`);
  }

  return `${body(module, module.children.slice(1)).replace(/^\n/gm, '')}\n`;
}

module.exports = { print, classesInOrder };
