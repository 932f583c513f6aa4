// The front end: a script in TypeScript, or the compiler's output for it, as a module's words. The parser, the binder and the checker are the
// compiler's own. What the word form can't say is refused with its place in the script. A test tool; a host has its own parser.
'use strict';
const ts = require('typescript');
const { record, flatten, recount } = require('./words.js');
const { form, HEADING, SORT, BINARY, ASSIGNING } = require('./forms.js');

const OPTIONS = {
  target: ts.ScriptTarget.ES2022,
  module: ts.ModuleKind.ES2022,
  moduleDetection: ts.ModuleDetectionKind.Force,
  experimentalDecorators: true,
  emitDecoratorMetadata: false,
  useDefineForClassFields: true,
  noEmitHelpers: true,
  removeComments: true,
  lib: ['lib.es2022.d.ts'],
  types: [],
};

class Refused extends Error {
  constructor(node, what) {
    const file = node.getSourceFile();
    const at = file.getLineAndCharacterOfPosition(node.getStart(file));
    super(`${at.line + 1}:${at.character + 1} ${what}`);
    this.place = `${at.line + 1}:${at.character + 1}`;
    this.what = what;
  }
}

// The spellings behind name numbers and atoms. One table serves a script and the compiler's output for it, so that equal numbers are equal spellings.
class Tables {
  constructor() {
    this.names = [''];
    this.atoms = [];
  }

  static number(list, text) {
    let n = list.indexOf(text);
    if (n < 0) n = list.push(text) - 1;
    return n;
  }

  name(text) { return Tables.number(this.names, text); }

  atom(text) { return Tables.number(this.atoms, text); }
}

const library = new Map();

// A program of one file, from text; `globals` is the text of the declarations that every script may use.
function program(fileName, text, globals) {
  const files = new Map([[fileName, text], ['globals.d.ts', globals]]);
  const base = ts.createCompilerHost(OPTIONS);
  const host = {
    ...base,
    getCurrentDirectory: () => '',
    fileExists: (f) => files.has(f) || base.fileExists(f),
    readFile: (f) => (files.has(f) ? files.get(f) : base.readFile(f)),
    getSourceFile(f, version) {
      if (f === fileName) return ts.createSourceFile(f, files.get(f), version, true);
      if (!library.has(f)) {
        const t = this.readFile(f);
        if (t === undefined) return undefined;
        library.set(f, ts.createSourceFile(f, t, version, true));
      }
      return library.get(f);
    },
  };
  return ts.createProgram([fileName, 'globals.d.ts'], OPTIONS, host);
}

// The compiler's output for the program's script.
function emit(prog, fileName) {
  let text;
  prog.emit(prog.getSourceFile(fileName), (_, t) => { text = t; });
  return text;
}

// The numbers of the compiler's messages about the program, each once, rising.
function messages(prog) {
  return [...new Set(ts.getPreEmitDiagnostics(prog).map((d) => d.code))].sort((a, b) => a - b);
}

// The script's words. `compiled` says that the text is the compiler's output: its 'var' lines are left out.
// Answers the module's records, its words and the spelling of each symbol.
function read(prog, fileName, tables, compiled) {
  const checker = prog.getTypeChecker();
  const file = prog.getSourceFile(fileName);
  const symbols = new Map();
  const spellings = [];

  const number = (key, text) => {
    if (!symbols.has(key)) {
      symbols.set(key, spellings.length);
      spellings.push(text);
    }
    return symbols.get(key);
  };
  const symbolOf = (id) => {
    let s = checker.getSymbolAtLocation(id);
    if (id.parent && ts.isShorthandPropertyAssignment(id.parent)) s = checker.getShorthandAssignmentValueSymbol(id.parent);
    if (id.parent && ts.isExportSpecifier(id.parent)) s = checker.getExportSpecifierLocalTargetSymbol(id.parent);
    if (id.parent && ts.isExportAssignment(id.parent)) s = checker.resolveName(id.text, id, ts.SymbolFlags.Value, false);
    if (s) s = checker.getExportSymbolOfSymbol(s);
    return number(s || `global ${id.text}`, id.text);
  };

  const r = record;
  const counted = (kind, list) => recount(r(kind, 0, ...list));
  const string = (text) => r(10, tables.name(text));
  const other = (node, name, ...list) => {
    if (list.length > 255) throw new Refused(node, 'more than 255 parts');
    return r(25, 256 * form(name) + list.length, ...list);
  };
  const hasModifier = (node, kind) => (node.modifiers || []).some((m) => m.kind === kind);
  const refuse = (node, what) => { throw new Refused(node, what); };

  function decorators(node) {
    const list = (node.modifiers || []).filter(ts.isDecorator).concat((node.illegalDecorators || []));
    return counted(28, list.map((d) => expression(d.expression)));
  }

  // Statements

  function statements(list) {
    return list.flatMap(statement);
  }

  function isTypeOnly(s) {
    return ts.isInterfaceDeclaration(s) || ts.isTypeAliasDeclaration(s) || ts.isEmptyStatement(s)
      || (hasModifier(s, ts.SyntaxKind.DeclareKeyword) && !ts.isClassDeclaration(s))
      || (ts.isFunctionDeclaration(s) && !s.body);
  }

  function exported(s, name) {
    if (!hasModifier(s, ts.SyntaxKind.ExportKeyword)) return [];
    if (hasModifier(s, ts.SyntaxKind.DefaultKeyword)) refuse(s, 'a default export that is no class');
    return [r(6, symbolOf(name))];
  }

  function statement(s) {
    if (isTypeOnly(s)) return [];
    if (ts.isExpressionStatement(s)) return [r(2, 0, expression(s.expression))];
    if (ts.isBlock(s)) return [counted(3, statements(s.statements))];
    if (ts.isClassDeclaration(s)) {
      const way = !hasModifier(s, ts.SyntaxKind.ExportKeyword) ? 0 : hasModifier(s, ts.SyntaxKind.DefaultKeyword) ? 2 : 1;
      return [r(4, way, classOf(s))];
    }
    if (ts.isVariableStatement(s)) return variables(s);
    if (ts.isFunctionDeclaration(s)) {
      if (!s.name) refuse(s, 'a default export that is no class');
      return [r(2, 0, other(s, 'function declaration', r(9, symbolOf(s.name)), functionOf(s))), ...exported(s, s.name)];
    }
    if (ts.isExportDeclaration(s)) {
      if (s.moduleSpecifier || !s.exportClause || !ts.isNamedExports(s.exportClause)) refuse(s, 'an export from another module');
      return s.exportClause.elements.map((e) => (e.propertyName ? refuse(e, 'an export under another name') : r(6, symbolOf(e.name))));
    }
    if (ts.isExportAssignment(s)) {
      if (s.isExportEquals || !ts.isIdentifier(s.expression)) refuse(s, 'a default export that is no class');
      return [r(7, symbolOf(s.expression))];
    }
    if (ts.isReturnStatement(s)) return [r(2, 0, other(s, 'return', ...(s.expression ? [expression(s.expression)] : [])))];
    if (ts.isThrowStatement(s)) return [r(2, 0, other(s, 'throw', expression(s.expression)))];
    if (ts.isIfStatement(s)) {
      const branch = (b) => r(21, 0, r(36, 0), counted(39, statements(ts.isBlock(b) ? b.statements : [b])));
      const parts = [expression(s.expression), branch(s.thenStatement)];
      if (s.elseStatement) parts.push(branch(s.elseStatement));
      return [r(2, 0, other(s, 'if', ...parts))];
    }
    return refuse(s, `no record for ${ts.SyntaxKind[s.kind]}`);
  }

  function variables(s) {
    const list = s.declarationList;
    if (!(list.flags & ts.NodeFlags.BlockScoped)) {
      if (compiled && list.declarations.every((d) => !d.initializer)) return [];
      refuse(s, 'a var statement');
    }
    return list.declarations.flatMap((d) => {
      if (!ts.isIdentifier(d.name)) refuse(d.name, 'a pattern');
      return [r(5, symbolOf(d.name), d.initializer ? expression(d.initializer) : r(14, 0)), ...exported(s, d.name)];
    });
  }

  // Classes

  function classOf(c) {
    let flags = 0;
    const parts = [decorators(c)];
    if (c.name) {
      flags += 1;
      parts.push(r(27, symbolOf(c.name)));
    }
    if (hasModifier(c, ts.SyntaxKind.DeclareKeyword)) flags += 2;
    const heritage = (c.heritageClauses || []).find((h) => h.token === ts.SyntaxKind.ExtendsKeyword);
    if (heritage) {
      flags += 4;
      parts.push(expression(heritage.types[0].expression));
    }
    parts.push(counted(29, c.members.flatMap(element)));
    return r(26, flags, ...parts);
  }

  function element(e) {
    const isStatic = hasModifier(e, ts.SyntaxKind.StaticKeyword) ? 1 : 0;
    if (ts.isSemicolonClassElement(e) || ts.isIndexSignatureDeclaration(e)) return [];
    if (ts.isClassStaticBlockDeclaration(e)) return [counted(33, statements(e.body.statements))];
    if (ts.isPropertyDeclaration(e)) {
      const erased = [ts.SyntaxKind.AbstractKeyword, ts.SyntaxKind.DeclareKeyword].some((k) => hasModifier(e, k));
      if (erased && decorators(e).payload > 0) refuse(e, 'a decorated property that is abstract or declare');
      if (erased) return [];
      const parts = [decorators(e), key(e.name)];
      if (e.initializer) parts.push(expression(e.initializer));
      return [r(31, isStatic + (e.initializer ? 2 : 0), ...parts)];
    }
    if (!ts.isMethodDeclaration(e) && !ts.isAccessor(e) && !ts.isConstructorDeclaration(e)) refuse(e, `no record for ${ts.SyntaxKind[e.kind]}`);
    const isConstructor = ts.isConstructorDeclaration(e);
    const parts = [decorators(e), isConstructor ? r(34, tables.name('constructor')) : key(e.name), parameters(e)];
    if (e.body) parts.push(code(e));
    return [r(30, isStatic + (isConstructor ? 2 : 0) + (e.body ? 4 : 0), ...parts)];
  }

  function key(k) {
    if (ts.isIdentifier(k)) return r(34, tables.name(k.text));
    if (ts.isPrivateIdentifier(k)) return r(35, tables.name(k.text.slice(1)));
    return expression(ts.isComputedPropertyName(k) ? k.expression : k);
  }

  // Functions

  const isThis = (p) => ts.isIdentifier(p.name) && p.name.text === 'this';
  const parametersOf = (f) => f.parameters.filter((p) => !isThis(p));

  function parameters(f) {
    return counted(36, parametersOf(f).map((p) => {
      if (!ts.isIdentifier(p.name)) refuse(p.name, 'a pattern');
      if (ts.isParameterPropertyDeclaration(p, f)) refuse(p, 'a parameter that declares a property');
      return r(37, p.initializer ? 1 : 0, decorators(p), ...(p.initializer ? [expression(p.initializer)] : []));
    }));
  }

  function heading(f) {
    let sort = 0;
    if (ts.isArrowFunction(f)) sort += SORT.arrow;
    if (hasModifier(f, ts.SyntaxKind.AsyncKeyword)) sort += SORT.async;
    if (f.asteriskToken) sort += SORT.generator;
    if (ts.isGetAccessor(f)) sort += SORT.getter;
    if (ts.isSetAccessor(f)) sort += SORT.setter;
    const list = parametersOf(f);
    if (list.some((p) => p.dotDotDotToken)) sort += SORT.rest;
    if (sort === 0 && list.length === 0) return [];
    return [r(2, 0, r(25, 256 * (HEADING + sort) + list.length, ...list.map((p) => r(9, symbolOf(p.name)))))];
  }

  function code(f) {
    const body = ts.isBlock(f.body) ? statements(f.body.statements) : [r(2, 0, other(f, 'return', expression(f.body)))];
    return counted(39, [...heading(f), ...body]);
  }

  function functionOf(f) {
    return r(21, 0, parameters(f), code(f));
  }

  // Expressions

  function expression(e) {
    const all = (list) => list.map(expression);
    switch (e.kind) {
      case ts.SyntaxKind.ParenthesizedExpression:
      case ts.SyntaxKind.AsExpression:
      case ts.SyntaxKind.TypeAssertionExpression:
      case ts.SyntaxKind.NonNullExpression:
      case ts.SyntaxKind.ExpressionWithTypeArguments:
        return expression(e.expression);
      case ts.SyntaxKind.Identifier: return r(9, symbolOf(e));
      case ts.SyntaxKind.StringLiteral: return string(e.text);
      case ts.SyntaxKind.NoSubstitutionTemplateLiteral: return r(12, tables.name(e.text));
      case ts.SyntaxKind.NumericLiteral: {
        const value = Number(e.text);
        return Number.isInteger(value) && value < 2 ** 26 ? r(11, value) : r(8, tables.atom(e.text));
      }
      case ts.SyntaxKind.NullKeyword: return r(13, 0);
      case ts.SyntaxKind.ThisKeyword: return r(15, 0);
      case ts.SyntaxKind.TrueKeyword:
      case ts.SyntaxKind.FalseKeyword:
      case ts.SyntaxKind.SuperKeyword:
      case ts.SyntaxKind.BigIntLiteral:
      case ts.SyntaxKind.RegularExpressionLiteral:
      case ts.SyntaxKind.MetaProperty:
        return r(8, tables.atom(e.getText(file)));
      case ts.SyntaxKind.ArrayLiteralExpression: return counted(16, all(e.elements));
      case ts.SyntaxKind.SpreadElement:
      case ts.SyntaxKind.SpreadAssignment:
        return other(e, 'spread', expression(e.expression));
      case ts.SyntaxKind.CallExpression: return call(e);
      case ts.SyntaxKind.NewExpression: return other(e, 'new', expression(e.expression), ...all(e.arguments || []));
      case ts.SyntaxKind.PropertyAccessExpression:
        if (e.questionDotToken) refuse(e, 'an optional chain');
        if (ts.isPrivateIdentifier(e.name)) return other(e, 'private member', expression(e.expression), string(e.name.text.slice(1)));
        if (e.name.text === 'prototype') return r(24, 0, expression(e.expression));
        return other(e, 'member', expression(e.expression), string(e.name.text));
      case ts.SyntaxKind.ElementAccessExpression:
        if (e.questionDotToken) refuse(e, 'an optional chain');
        return other(e, 'element', expression(e.expression), expression(e.argumentExpression));
      case ts.SyntaxKind.BinaryExpression: return binary(e);
      case ts.SyntaxKind.PrefixUnaryExpression: return other(e, `prefix ${ts.tokenToString(e.operator)}`, expression(e.operand));
      case ts.SyntaxKind.PostfixUnaryExpression: return other(e, `postfix ${ts.tokenToString(e.operator)}`, expression(e.operand));
      case ts.SyntaxKind.TypeOfExpression: return other(e, 'prefix typeof', expression(e.expression));
      case ts.SyntaxKind.DeleteExpression: return other(e, 'prefix delete', expression(e.expression));
      case ts.SyntaxKind.AwaitExpression: return other(e, 'prefix await', expression(e.expression));
      case ts.SyntaxKind.VoidExpression:
        return ts.isNumericLiteral(e.expression) && e.expression.text === '0' ? r(14, 0) : other(e, 'prefix void', expression(e.expression));
      case ts.SyntaxKind.YieldExpression:
        if (e.asteriskToken) refuse(e, 'yield*');
        return other(e, 'yield', ...(e.expression ? [expression(e.expression)] : []));
      case ts.SyntaxKind.ConditionalExpression:
        return other(e, 'conditional', expression(e.condition), expression(e.whenTrue), expression(e.whenFalse));
      case ts.SyntaxKind.TemplateExpression:
        return other(e, 'template', r(12, tables.name(e.head.text)),
          ...e.templateSpans.flatMap((s) => [expression(s.expression), r(12, tables.name(s.literal.text))]));
      case ts.SyntaxKind.ObjectLiteralExpression: return other(e, 'object', ...e.properties.map(property));
      case ts.SyntaxKind.ClassExpression: return r(20, 0, classOf(e));
      case ts.SyntaxKind.FunctionExpression:
        return e.name ? other(e, 'named function', r(9, symbolOf(e.name)), functionOf(e)) : functionOf(e);
      case ts.SyntaxKind.ArrowFunction: return functionOf(e);
      default: return refuse(e, `no record for ${ts.SyntaxKind[e.kind]}`);
    }
  }

  function property(p) {
    if (ts.isSpreadAssignment(p)) return expression(p);
    if (ts.isShorthandPropertyAssignment(p)) return other(p, 'property', string(p.name.text), r(9, symbolOf(p.name)));
    if (ts.isPropertyAssignment(p)) {
      if (ts.isComputedPropertyName(p.name)) return other(p, 'computed property', expression(p.name.expression), expression(p.initializer));
      return other(p, 'property', string(p.name.text), expression(p.initializer));
    }
    if (ts.isComputedPropertyName(p.name)) refuse(p.name, 'a computed key of an object\'s method');
    return other(p, 'object method', string(p.name.text), functionOf(p));
  }

  function call(e) {
    if (e.questionDotToken) refuse(e, 'an optional chain');
    const list = e.arguments;
    const isHelper = (name) => ts.isIdentifier(e.expression) && e.expression.text === name;
    if (isHelper('__decorate')) {
      if (list.length !== 2 && list.length !== 4) refuse(e, `__decorate with ${list.length} arguments`);
      return r(22, list.length, ...list.map(expression));
    }
    if (isHelper('__param')) {
      if (list.length !== 2 || !ts.isNumericLiteral(list[0])) refuse(e, '__param of something else than an index and a decorator');
      return r(23, Number(list[0].text), expression(list[1]));
    }
    return r(17, list.length, expression(e.expression), ...list.map(expression));
  }

  function binary(e) {
    const op = ts.tokenToString(e.operatorToken.kind);
    if (ts.isPrivateIdentifier(e.left)) return r(19, tables.name(e.left.text.slice(1)), expression(e.right));
    if (BINARY.includes(op)) return other(e, `binary ${op}`, expression(e.left), expression(e.right));
    if (!ASSIGNING.includes(op)) refuse(e, `no record for ${op}`);
    const target = ts.skipParentheses(e.left);
    if (ts.isArrayLiteralExpression(target) || ts.isObjectLiteralExpression(target)) refuse(e.left, 'a pattern');
    if (op === '=' && ts.isIdentifier(target)) return r(18, symbolOf(target), expression(e.right));
    return other(e, `assign ${op}`, expression(e.left), expression(e.right));
  }

  const module = recount(r(1, 0, r(40, 0), ...statements(file.statements)));
  module.children[0].payload = spellings.length;
  return { module, words: flatten(module), spellings };
}

module.exports = { program, emit, messages, read, Tables, Refused };
