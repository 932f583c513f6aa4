// What a script's output runs with: __decorate and __param as tslib defines them, the decorators of globals.d.ts, and a log of what is called with
// what, in which order. Evaluated in a context of its own for each output; its value is the log. Registrations are the log's lines of knob and cc.
(() => {
  'use strict';
  const lines = [];
  const registrations = [];

  const isClass = (v) => typeof v === 'function' && /^class\b/.test(Function.prototype.toString.call(v));

  function describe(v) {
    if (typeof v === 'string') return JSON.stringify(v);
    if (typeof v === 'bigint') return `${v}n`;
    if (isClass(v)) return `class ${v.name}`;
    if (typeof v === 'function') return `function ${v.name}`;
    if (typeof v !== 'object' || v === null) return String(v);
    if (Array.isArray(v)) return `[${v.map(describe).join(', ')}]`;
    if (Object.hasOwn(v, 'constructor') && isClass(v.constructor) && v.constructor.prototype === v) return `prototype of ${v.constructor.name}`;
    const proto = Object.getPrototypeOf(v);
    if (proto !== Object.prototype && proto !== null && isClass(v.constructor)) return `a ${v.constructor.name}`;
    if (Object.hasOwn(v, 'configurable') && Object.hasOwn(v, 'value')) return `descriptor of ${describe(v.value)}`;
    if (Object.hasOwn(v, 'configurable')) return `descriptor of${v.get ? ' get' : ''}${v.set ? ' set' : ''}`;
    return `{${Object.keys(v).map((k) => `${k}: ${describe(v[k])}`).join(', ')}}`;
  }

  const log = (...parts) => { lines.push(parts.join(' ')); };
  const list = (vs) => vs.map(describe).join(', ');

  globalThis.__decorate = function (decorators, target, ...rest) {
    const [key, given] = rest;
    const isMember = rest.length > 0;
    log('decorate', list([target, ...rest]), 'with', decorators.length);
    let result = !isMember ? target : given === null ? Object.getOwnPropertyDescriptor(target, key) : given;
    for (const decorator of [...decorators].reverse()) {
      result = (isMember ? decorator(target, key, result) : decorator(result)) || result;
    }
    if (isMember && result) Object.defineProperty(target, key, result);
    return result;
  };
  globalThis.__param = (index, decorator) => function __param(target, key) { decorator(target, key, index); };

  const plain = (name) => function (...args) { log('apply', name, 'to', list(args)); };
  for (const name of ['a', 'b', 'c', 'd']) globalThis[name] = plain(name);

  globalThis.mark = (label, ...more) => {
    log('evaluate', list([label, ...more]));
    return plain(`mark ${describe(label)}`);
  };

  let slots = 0;
  function register(what, number, args) {
    const place = `${what} ${number}: ${args.map((x) => (typeof x === 'object' && x && Object.hasOwn(x, 'configurable') ? 'method' : describe(x))).join(', ')}`;
    log('register', place);
    registrations.push(place);
  }
  globalThis.knob = (slot) => function (...args) {
    if (slot === undefined) slots += 1;
    register('knob', slot === undefined ? slots : slot, args);
  };
  globalThis.cc = (controller) => function (...args) { register('cc', controller, args); };

  globalThis.replace = (label) => function (target) {
    log('replace', describe(target), 'by', label);
    const other = class extends target {};
    Object.defineProperty(other, 'name', { value: `${label}(${target.name})` });
    return other;
  };
  globalThis.wrap = (label) => function (target, key, descriptor) {
    log('wrap', list([target, key, descriptor]));
    const part = typeof descriptor.value === 'function' ? 'value' : 'get';
    const old = descriptor[part];
    return { ...descriptor, [part](...args) { return `${label}(${old.apply(this, args)})`; } };
  };

  globalThis.trace = (...values) => log('trace', list(values));
  globalThis.see = (value) => {
    log('see', describe(value));
    return value;
  };
  return { lines, registrations, describe };
})()
