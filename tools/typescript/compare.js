// Runs every script through both comparisons and prints a table. Exit status 1 if a script comes out otherwise than its first line says, or if an
// output that was damaged on purpose passes. docs/TYPESCRIPT.md says what is compared.
// Arguments: --rewriter CMD, the program (default: the project's); --show NAME, a script's words, outputs and logs; --random N and --seed S, only N
// scripts made at random; --write, the files beside the scripts anew.
'use strict';
const fs = require('fs');
const path = require('path');
const { spawnSync } = require('child_process');
const { program, emit, messages, read, Tables, Refused } = require('./read.js');
const { print, classesInOrder } = require('./print.js');
const { build, flatten, show, parse, copy } = require('./words.js');
const { KINDS, erase, renumber, captured } = require('./normalize.js');
const { damages } = require('./damage.js');
const random = require('./random.js');

const root = path.join(__dirname, '..', '..');
const args = process.argv.slice(2);
const argument = (name) => (args.includes(name) ? args[args.indexOf(name) + 1] : null);
const rewriter = (argument('--rewriter') || path.join(root, 'target', 'bin', 'gingerpost')).split(' ');
const globals = fs.readFileSync(path.join(__dirname, 'globals.d.ts'), 'utf8');

const problems = [];
const problem = (name, text) => problems.push(`${name}: ${text}`);
const sameList = (x, y) => x.length === y.length && x.every((v, i) => v === y[i]);

// The program

const answers = new Map();

// The program's answer: its three numbers and its words. Each module is asked once.
function rewrite(words, job) {
  const input = `${show(words).join('\n')}\n`;
  const asked = `${job || ''} ${input}`;
  if (!answers.has(asked)) answers.set(asked, ask(input, job ? [job] : []));
  return answers.get(asked);
}

function ask(input, job) {
  const r = spawnSync(rewriter[0], [...rewriter.slice(1), ...job], { input, encoding: 'utf8' });
  if (r.error) {
    console.error(`the program can't be run: ${r.error.message}; 'tools/build program' builds it`);
    process.exit(2);
  }
  if (r.status !== 0) throw new Error(`${rewriter.join(' ')}: ${r.stderr}`);
  const [numbers, ...lines] = r.stdout.trim().split('\n');
  const [code, written, fresh] = numbers.split(' ').map(Number);
  const answer = parse(lines.join('\n'));
  if (answer.length !== written) throw new Error(`${written} words counted, ${answer.length} printed`);
  return { code, fresh, words: answer };
}

// Scripts

// What a script's first line says: '// records: KIND, ..; behaviour: same|order|differs|none; errors: NUMBER, ..; answer: NUMBER'.
function expectations(name, text) {
  const said = {};
  for (const part of text.split('\n', 1)[0].replace(/^\/\/\s*/, '').split(';')) {
    const [key, list = ''] = part.split(':');
    said[key.trim()] = list.split(',').map((s) => s.trim()).filter(Boolean);
  }
  if (!said.records || !said.behaviour) throw new Error('the first line says nothing of records or of behaviour');
  const kinds = said.records.filter((k) => k !== 'same');
  for (const k of kinds) if (!KINDS[k]) throw new Error(`no such kind of difference: ${k}`);
  return { kinds, behaviour: said.behaviour[0], errors: (said.errors || []).map(Number), answer: Number((said.answer || ['0'])[0]) };
}

// A script read, compiled and rewritten.
function load(folder, name) {
  const text = fs.readFileSync(path.join(folder, `${name}.ts`), 'utf8');
  return { ...loadText(name, text), folder, expected: expectations(name, text) };
}

function loadText(name, text) {
  const prog = program(`${name}.ts`, text, globals);
  const tables = new Tables();
  const script = read(prog, `${name}.ts`, tables, false);
  const output = emit(prog, `${name}.ts`);
  const s = { name, tables, script, output, errors: messages(prog) };
  s.theirs = readOutput(s, output);
  s.answer = rewrite(script.words);
  s.report = rewrite(script.words, 'report');
  if (s.answer.code === 0) s.printed = printOf(s, s.answer.words);
  return s;
}

function readOutput(s, output) {
  return read(program(`${s.name}.out.ts`, output, globals), `${s.name}.out.ts`, s.tables, true).module;
}

function printOf(s, words) {
  return print(words, { read: s.script.module, spellings: s.script.spellings, tables: s.tables, report: s.report.words });
}

// Comparison 1

const lineOf = (module) => show(flatten(module)).join(' ');

const changesOf = (kinds) => Object.keys(KINDS).filter((k) => kinds.includes(k)).map((k) => KINDS[k]);

// The module as read under the changes of the kinds, its rewriting and its report.
function rewritten(s, kinds) {
  const changes = changesOf(kinds).filter((k) => k.read);
  if (changes.length === 0) return { module: s.script.module, answer: s.answer, report: s.report };
  const module = changes.reduce((m, k) => k.read(m), s.script.module);
  return { module, answer: rewrite(flatten(module)), report: rewrite(flatten(module), 'report') };
}

// Our records and the compiler's under the changes of the kinds, normalized; `words` stand for ours if they are given.
function bothSides(s, kinds, words) {
  const { module, answer, report } = rewritten(s, kinds);
  if (answer.code !== 0) return { ours: `refusal ${answer.code}`, theirs: lineOf(renumber(s.theirs)) };
  const aliases = new Set(report.words.filter(([sort]) => sort === 4).map(([, symbol]) => symbol));
  const context = { read: module, tables: s.tables, innerOf: innerSymbols(module, report), aliases };
  let ours = erase(build(words || answer.words));
  let theirs = erase(copy(s.theirs));
  for (const k of changesOf(kinds)) {
    if (k.ours) ours = k.ours(ours, context);
    if (k.theirs) theirs = k.theirs(theirs, context);
  }
  return { ours: lineOf(renumber(ours)), theirs: lineOf(renumber(theirs)) };
}

function sameRecords(s, kinds, words) {
  const { ours, theirs } = bothSides(s, kinds, words);
  return ours === theirs;
}

// The kinds that are not needed for the two sides to be the same.
function idleKinds(s, kinds, words) {
  return kinds.filter((k) => (!words || !KINDS[k].read) && sameRecords(s, kinds.filter((x) => x !== k), words));
}

function compareRecords(s) {
  const { kinds } = s.expected;
  if (!sameRecords(s, kinds)) {
    const { ours, theirs } = bothSides(s, kinds);
    problem(s.name, `a difference in the records that is on no list\n  ours     ${ours}\n  compiler ${theirs}`);
    return 'UNEXPLAINED';
  }
  for (const k of idleKinds(s, kinds)) problem(s.name, `the difference ${k} doesn't show`);
  return kinds.join(', ') || 'same';
}

// What the back end printed, read again, is what the program wrote, but for what has no JavaScript and for equal spellings of two symbols.
function compareRoundTrip(s) {
  const left = KINDS['left-decorators'].ours;
  const context = { innerOf: innerSymbols(s.script.module, s.report) };
  const unify = KINDS['lost-assignment'].ours;
  const wrote = lineOf(renumber(captured(left(unify(erase(build(s.answer.words)), context)))));
  const again = lineOf(renumber(erase(readOutput(s, s.printed))));
  if (wrote !== again) problem(s.name, `printed and read again, the records are others\n  written ${wrote}\n  read    ${again}`);
}

// Each inner symbol's class, by symbol.
function innerSymbols(module, report) {
  const inner = report.words.filter(([sort]) => sort === 3).map(([, symbol]) => symbol).sort((x, y) => x - y);
  const classes = classesInOrder(module);
  return new Map(inner.map((x, i) => [x, classes[i]]));
}

// Comparison 2

function behave(outputs) {
  const r = spawnSync(process.execPath, ['--experimental-vm-modules', '--no-warnings', path.join(__dirname, 'behave.js')],
    { input: JSON.stringify(outputs), encoding: 'utf8', maxBuffer: 2 ** 28 });
  if (r.status !== 0) throw new Error(`behave.js: ${r.stderr}`);
  return JSON.parse(r.stdout);
}

// The lines of one log that the other has not, with their number where they stand twice: '-' the compiler's, '+' ours.
function difference(theirs, ours) {
  const count = new Map();
  for (const l of theirs) count.set(l, (count.get(l) || 0) - 1);
  for (const l of ours) count.set(l, (count.get(l) || 0) + 1);
  return [...count].filter(([, n]) => n !== 0).map(([l, n]) => `${(n < 0 ? '-' : '+').repeat(Math.abs(n))} ${l}`).sort();
}

const sorted = (list) => [...list].sort();

function outcome(theirs, ours) {
  if (sameList(theirs.lines, ours.lines)) return 'same';
  return sameList(sorted(theirs.lines), sorted(ours.lines)) && sameList(sorted(theirs.registrations), sorted(ours.registrations)) ? 'order' : 'differs';
}

const pinned = (s) => path.join(s.folder, `${s.name}.behaviour`);

// Whether the logs come out as the script says. 'differs' has its lines in a file; all others must stand in the same order, unless one of the script's
// kinds changes the order.
function asExpected(s, theirs, ours) {
  if (outcome(theirs, ours) !== s.expected.behaviour) return false;
  if (s.expected.behaviour !== 'differs') return true;
  const lines = difference(theirs.lines, ours.lines);
  const others = (list) => list.filter((l) => !lines.some((d) => d.replace(/^[-+]+ /, '') === l));
  const inOrder = s.expected.kinds.some((k) => KINDS[k].reorders) || sameList(others(theirs.lines), others(ours.lines));
  return inOrder && fs.existsSync(pinned(s)) && fs.readFileSync(pinned(s), 'utf8').trim() === lines.join('\n');
}

function compareBehaviour(s, theirs, ours) {
  if (args.includes('--write') && s.expected.behaviour === 'differs') fs.writeFileSync(pinned(s), `${difference(theirs.lines, ours.lines).join('\n')}\n`);
  if (!asExpected(s, theirs, ours)) {
    const lines = difference(theirs.lines, ours.lines).join('\n  ');
    problem(s.name, `behaviour: ${outcome(theirs, ours)}, not as the script and its file say\n  ${lines}`);
  }
  return outcome(theirs, ours);
}

// The examples

// An example's words, their spellings, the rewritten words and the JavaScript stand beside it.
function compareFiles(s) {
  const numbers = `${s.answer.code} ${s.answer.words.length} ${s.answer.fresh}`;
  const files = {
    words: show(s.script.words),
    names: [...s.script.spellings.map((x, i) => `s${i} ${x}`), ...s.tables.names.map((x, i) => `n${i} ${x}`).slice(1)],
    rewritten: [numbers, ...show(s.answer.words)],
    js: s.printed.trimEnd().split('\n'),
  };
  for (const [end, lines] of Object.entries(files)) {
    const file = path.join(s.folder, `${s.name}.${end}`);
    const text = `${lines.join('\n')}\n`;
    if (args.includes('--write')) fs.writeFileSync(file, text);
    else if (!fs.existsSync(file) || fs.readFileSync(file, 'utf8') !== text) problem(s.name, `examples/${s.name}.${end} is not up to date`);
  }
}

// All of it

// An example whose first line doesn't say what comes out is not the front end's; it is left alone.
const saysOutcome = (folder, name) => fs.readFileSync(path.join(folder, `${name}.ts`), 'utf8').startsWith('// records:');
const scriptsIn = (folder) => (fs.existsSync(folder) ? fs.readdirSync(folder) : []).filter((f) => /(?<!\.d)\.ts$/.test(f)).map((f) => f.slice(0, -3)).sort();

function showScript(s, theirs, ours) {
  const { ours: x, theirs: y } = bothSides(s, s.expected.kinds);
  const parts = [
    ['words', show(s.script.words).join(' ')], ['answer', `${s.answer.code}\n${show(s.answer.words).join(' ')}`],
    ['our JavaScript', s.printed || ''], ['the compiler\'s JavaScript', s.output],
    ['our records, normalized', x], ['the compiler\'s records, normalized', y], ['messages', s.errors.join(', ')],
    ['our log', ours ? ours.lines.join('\n') : ''], ['the compiler\'s log', theirs.lines.join('\n')],
    ['difference', ours ? difference(theirs.lines, ours.lines).join('\n') : ''],
  ];
  for (const [title, text] of parts) console.log(`--- ${title}\n${text}`);
}

function checkRefused() {
  const folder = path.join(__dirname, 'refused');
  const names = scriptsIn(folder);
  for (const name of names) {
    const text = fs.readFileSync(path.join(folder, `${name}.ts`), 'utf8');
    const wanted = text.split('\n', 1)[0].replace(/^\/\/ refused: /, '');
    try {
      read(program(`${name}.ts`, text, globals), `${name}.ts`, new Tables(), false);
      problem(name, 'not refused');
    } catch (e) {
      if (!(e instanceof Refused)) throw e;
      if (e.message !== wanted) problem(name, `refused with '${e.message}'`);
    }
  }
  return names.length;
}

// Outputs damaged on purpose must be seen: by the records, where the compared rewriting is damaged, and by behaviour, where the program's is. Where the
// two may differ in order, behaviour can't see what only changes the order.
function checkDamaged(s, theirs, logs, totals) {
  const count = (sort, key) => {
    const t = totals[sort] || (totals[sort] = { records: 0, behaviour: 0 });
    t[key] += 1;
  };
  const { kinds } = s.expected;
  for (const d of damages(rewritten(s, kinds).answer.words)) {
    count(d.sort, 'records');
    if (sameRecords(s, kinds, d.words) && idleKinds(s, kinds, d.words).length === 0) problem(s.name, `${d.sort}: the records don't show it`);
  }
  for (const d of s.damaged.filter((x) => s.expected.behaviour === 'same' || x.sort === 'call left out')) {
    count(d.sort, 'behaviour');
    if (asExpected(s, theirs, logs.get(d.name))) problem(s.name, `${d.sort}: behaviour doesn't show it`);
  }
}

// Scripts made at random: with the changes of all kinds, our records must be the compiler's.
function checkRandom(from, number) {
  const outcomes = new Map();
  const count = (what) => outcomes.set(what, (outcomes.get(what) || 0) + 1);
  const all = Object.keys(KINDS).filter((k) => k !== 'asserted-key');
  for (let seed = from; seed < from + number; seed += 1) {
    const text = random.script(seed);
    const s = loadText(`random-${seed}`, text);
    if (s.errors.some((e) => e >= 1000 && e < 1100)) problem(s.name, `not a script: ${s.errors}\n${text}`);
    if (s.answer.code === 0) compareRoundTrip(s);
    if (sameRecords(s, [])) count('the same records');
    else if (sameRecords(s, all)) {
      count('listed differences');
      for (const k of all.filter((x) => !sameRecords(s, all.filter((y) => y !== x)))) count(`  ${k}`);
    } else {
      const { ours, theirs } = bothSides(s, all);
      problem(s.name, `a difference in the records that is on no list\n${text}\n  ours     ${ours}\n  compiler ${theirs}`);
    }
  }
  console.log(`scripts made at random: ${number}, seeds ${from} to ${from + number - 1}`);
  for (const [what, n] of [...outcomes].sort()) console.log(`${what}: ${n}`);
}

function main() {
  const examples = path.join(root, 'examples');
  const wanted = argument('--show');
  const scripts = [];
  for (const folder of [path.join(__dirname, 'scripts'), examples]) {
    for (const name of scriptsIn(folder).filter((n) => (!wanted || n === wanted) && (folder !== examples || saysOutcome(folder, n)))) {
      try {
        scripts.push(load(folder, name));
      } catch (e) {
        problem(name, e instanceof Refused ? `the front end refuses it: ${e.message}` : e.stack);
      }
    }
  }

  const outputs = [];
  for (const s of scripts) {
    outputs.push({ name: `${s.name} compiler`, code: s.output });
    if (!s.printed) continue;
    outputs.push({ name: `${s.name} ours`, code: s.printed });
    s.damaged = damages(s.answer.words).map((d, i) => ({ ...d, name: `${s.name} damaged ${i}` }));
    for (const d of s.damaged) outputs.push({ name: d.name, code: printOf(s, d.words) });
  }
  const logs = new Map(behave(outputs).map((l) => [l.name, l]));

  const totals = {};
  const rows = [];
  for (const s of scripts) {
    const theirs = logs.get(`${s.name} compiler`);
    const ours = logs.get(`${s.name} ours`);
    if (wanted) showScript(s, theirs, ours);
    if (!sameList(s.errors, s.expected.errors)) problem(s.name, `the compiler's messages are ${s.errors.join(', ') || 'none'}`);
    if (s.answer.code !== s.expected.answer) problem(s.name, `the program answers ${s.answer.code}`);
    const records = compareRecords(s);
    let behaviour = 'none';
    if (s.printed) {
      compareRoundTrip(s);
      behaviour = compareBehaviour(s, theirs, ours);
      checkDamaged(s, theirs, logs, totals);
      if (s.folder === examples) compareFiles(s);
    } else if (s.expected.behaviour !== 'none') problem(s.name, 'there is no output to run');
    const number = ours ? ours.registrations.length : 0;
    rows.push([s.name, records, behaviour, String(ours ? ours.lines.length : 0), String(number), s.answer.code ? `refusal ${s.answer.code}` : '']);
  }

  if (!wanted) {
    const heads = ['script', 'records', 'behaviour', 'lines', 'registrations', 'answer'];
    const width = heads.map((h, i) => Math.max(h.length, ...rows.map((r) => r[i].length)));
    for (const r of [heads, ...rows]) console.log(r.map((c, i) => c.padEnd(width[i])).join('  ').trimEnd());
    console.log('');
    for (const [sort, t] of Object.entries(totals)) {
      console.log(`damaged on purpose, ${sort}: ${t.records} for the records, ${t.behaviour} for behaviour`);
    }
    console.log(`scripts that the front end must refuse: ${checkRefused()}`);
    const same = rows.filter((r) => r[1] === 'same').length;
    const unexplained = rows.filter((r) => r[1] === 'UNEXPLAINED').length;
    console.log(`scripts: ${rows.length}; the same records: ${same}; listed differences: ${rows.length - same - unexplained}; unexplained: ${unexplained}`);
    console.log('');
    checkRandom(1, 50);
  }
  finish();
}

function finish() {
  for (const p of problems) console.log(`PROBLEM ${p}`);
  console.log(`${problems.length} problems`);
  process.exitCode = problems.length ? 1 : 0;
}

if (args.includes('--random')) {
  checkRandom(Number(argument('--seed') || 1), Number(argument('--random')));
  finish();
} else main();
