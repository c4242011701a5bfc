'use strict';
// Where a name or an operator may mean something else, and which: texts with `hole` where one stands, and what stands there. A program is a place in a
// place with a thing in it, as script, as module, and in strict code of a script.
const { treeOf } = require('../../packages/ecmaprint/lib/tree_of/tree.js');

// (`hole` stands for an expression, and where a name alone may stand for a name)
const STATEMENTS = [
  'if (a) function hole() {}', 'if (a); else function hole() {}', 'if (a) function f() { hole; }', 'for (var hole = a in b);', 'for (var a = hole in b);',
  'hole;', '{ hole; }', 'if (hole); else;', 'while (hole);', 'do ; while (hole);', 'switch (hole) { case hole: default: hole; }', 'throw hole;', 'try { hole; } finally {}',
  'hole: a;', 'hole: for (;;) { break hole; }', 'with (hole) a;',
  'for (hole;;);', 'for (;hole;hole);', 'for (hole in a);', 'for (hole of a);', 'for (a in hole);', 'for (a of hole);', 'for ((hole) in a);', 'for ((hole) of a);',
  'for (hole.a in b);', 'for (hole.a of b);', 'for (hole[a] in b);', 'for (hole[a] of b);', 'for (hole[a];;);', 'for (hole.a;;);', 'hole[a];', 'hole.a;',
  'for (var a = hole;;);', 'for (var a of hole);', 'for (let a in hole);', 'for (let hole of a);', 'for (let hole in a);', 'for (var hole of a);', 'for (var hole;;);', 'for ([hole] of a);', 'for ({ hole } of a);',
  'async function f() { for await (hole of a); }', 'async function f() { for await ((hole) of a); }', 'async function f() { for await (hole.a of b); }', 'async function f() { for await (a of hole); }', 'async function f() { for await (let hole of a); }',
  'let a = hole;', 'const a = hole;', 'var a = hole;', 'let hole;', 'var hole;', 'const hole = a;', 'let [hole] = a;', 'var { hole } = a;', 'var { a: hole } = b;', 'var { a = hole } = b;', 'var { [hole]: a } = b;',
  'let [...hole] = a;', 'try {} catch (hole) {}', 'try {} catch ([a = hole]) {}',
  'function f(a = hole) {}', 'function* f(a = hole) {}', 'async function f(a = hole) {}', 'async function* f(a = hole) {}',
  'function f() { hole; }', 'function* f() { hole; }', 'async function f() { hole; }', 'async function* f() { hole; }', 'function f() { return hole; }',
  'function f(hole) {}', 'function* f(hole) {}', 'async function f(hole) {}', 'async function* f(hole) {}', 'function f({ hole }) {}', 'function* f([hole]) {}', 'function f(...hole) {}',
  'function hole() {}', 'function* hole() {}', 'async function hole() {}', 'async function* hole() {}', 'class hole {}',
  'class A { static { hole; } }', 'class A { static { for (a of hole); } }', 'class A { static { let hole; } }', 'class A { static { function hole() {} } }', 'class A { static { hole: a; } }',
];

// those that Babel alone knows of the three
const NEW_STATEMENTS = [
  'using hole = a;', '{ using hole = a; }', '{ using a = hole; }', 'function f() { using hole = a; }', 'for (using hole of a);', 'for (using a of hole);', 'async function f() { for await (using hole of a); }', 'if (a) { using b = hole; }',
  '@hole class A {}', '@(hole) class A {}', '@hole(a) class A {}', '@hole.a class A {}', '@a(hole) class A {}', '@hole.a(b) class A {}', 'function* g() { @(hole) class A {} }', 'async function f() { @(hole) class A {} }',
];
const NEW_EXPRESSIONS = [
  '(@hole class {})', '(@(hole) class {})', '(class { @hole a() {} })', '(class { @(hole) a() {} })', '(class { @hole(a) b })', '(class { @a(hole) static b() {} })', '(class { @(hole) get a() {} })', '(class { accessor a = hole })', '(class { accessor [hole] = a })',
];

// expressions, which may stand in any of them too
const EXPRESSIONS = [
  '(hole)', '[hole]', '[...hole]', 'f(hole)', 'new A(hole)', 'a[hole]', 'a?.[hole]', 'a ? hole : b', '-hole', 'hole++', '++hole', 'hole = a', 'hole += a', 'a = hole', 'a, hole', 'a in hole', 'hole + a', 'hole ** a',
  '[hole] = a', '[a = hole] = b', '({ hole } = a)', '({ a: hole } = b)', '({ [hole]: a } = b)', '({ hole = a } = b)', '({ a = hole } = b)', '[...hole] = a', '({ ...hole } = a)',
  '`${hole}`', 'a`${hole}`', 'hole`a`', 'hole(a)', 'new hole', 'hole.a', 'hole?.a', 'import(hole)',
  '({ hole })', '({ a: hole })', '({ [hole]: a })', '({ ...hole })', '({ hole: a })', '({ hole() {} })', '({ a() { hole; } })', '({ *a() { hole; } })', '({ async a() { hole; } })', '({ async *a() { hole; } })',
  '({ a(b = hole) {} })', '({ *a(b = hole) {} })', '({ async a(b = hole) {} })', '({ async *a(b = hole) {} })', '({ get a() { hole; } })', '({ set a(b = hole) {} })', '({ set a(hole) {} })', '({ [hole]() {} })',
  '() => hole', 'async () => hole', '() => { hole; }', 'async () => { hole; }', '(a = hole) => b', 'async (a = hole) => b', '([a = hole]) => b', 'async ({ a = hole }) => b', '({ [hole]: a }) => b',
  'hole => a', '(hole) => a', 'async hole => a', 'async (hole) => a', '(a, hole) => b', 'async (a, hole) => b', '([hole]) => a', 'async ({ hole }) => a', '(...hole) => a', 'async (...hole) => a',
  '(function () { hole; })', '(function* () { hole; })', '(async function () { hole; })', '(async function* () { hole; })', '(function (a = hole) {})', '(function* (a = hole) {})', '(async function (a = hole) {})', '(async function* (a = hole) {})',
  '(function hole() {})', '(function* hole() {})', '(async function hole() {})', '(async function* hole() {})', '(class hole {})',
  '(class { [hole]() {} })', '(class { static [hole]() {} })', '(class { [hole] = a })', '(class { get [hole]() {} })', '(class extends hole {})', '(class { a = hole })', '(class { static a = hole })', '(class { #a = hole })',
  '(class { static { hole; } })', '(class { static { (hole); } })', '(class { a() { hole; } })', '(class { *a() { hole; } })', '(class { async a() { hole; } })', '(class { async *a() { hole; } })', '(class { constructor() { hole; } })', '(class { constructor(a = hole) {} })',
  '(class { a(b = hole) {} })', '(class { *a(b = hole) {} })', '(class { async a(b = hole) {} })', '(class { set a(b = hole) {} })', '(class { hole() {} })', '(class { hole = a })', '(class { static hole() {} })',
];

const MODULE_ITEMS = ['export default hole;', 'export let a = hole;', 'export { hole };', 'export { a as hole };', 'import hole from "a";', 'import { hole } from "a";', 'import { a as hole } from "b";', 'import * as hole from "a";', 'export default function hole() {}', 'export default class hole {}', 'export * as hole from "a";', 'export { hole } from "a";'];

// Names, and operators with what they stand before.
const NAMES = ['a', 'await', 'yield', 'let', 'async', 'of', 'static', 'arguments', 'eval', 'using', 'get', 'constructor', 'implements', 'enum', 'aw\\u0061it', 'yi\\u0065ld', 'l\\u0065t', '\\u0061sync', 'st\\u{61}tic', 'ev\\u0061l', '\\u0069f'];
const OPERATORS = [
  ['async', 'await x'], ['async', 'await (x)'], ['async', '-await x'], ['generator', 'yield'], ['generator', 'yield x'], ['generator', 'yield* x'], ['generator', '(yield)'],
  ['script', 'x in y'], ['script', '(x in y)'], ['script', '() => x'], ['script', '() => x in y'], ['script', 'async () => x'], ['script', 'async x => y'], ['script', '() => await'], ['script', '() => yield'], ['script', '() => { await; }'],
  ['script', '(await) => x'], ['script', 'async(x)'], ['script', 'let[x]'], ['script', 'let.x'], ['script', '(let)'], ['script', '(async)'], ['script', 'x.y'], ['script', 'x()'], ['script', '[x]'], ['script', '{ x }'], ['script', 'function () {}'], ['script', 'class {}'],
  ['script', 'function await() {}'], ['script', 'function yield() {}'], ['script', 'new.target'], ['script', 'x = y'], ['script', 'x, y'], ['script', 'x ?? y'], ['script', 'x || y'],
];
const ROUND = { async: ['async function f() { (', '); }'], generator: ['function* f() { (', '); }'], script: ['(', ');'] };

const bodyOf = (text, sourceType) => {
  const { tree } = treeOf(text, { nowhere: true, recovers: true, sourceType });
  return (tree.Module || tree.Script).body;
};
const insideOf = ([stmt]) => stmt.Decl.Fn.function.body.stmts;

// What an operator's text is as an expression.
function operator([within, text]) {
  const [before, behind] = ROUND[within], body = bodyOf(`${before}${text}${behind}`, 'script');
  const [{ Expr: { expr } }] = within === 'script' ? body : insideOf(body);
  return { text, name: null, expr: expr.Paren.expr };
}

const NOWHERE = { lo: 0, hi: 0 };
const ident = (sym) => ({ span: NOWHERE, sym, optional: false });
const named = (name) => ({ text: name, name, expr: { Ident: ident(name) } });

// where a name is a key, and no expression
const KEYS = ['key', 'orig', 'exported', 'imported', 'name', 'prop'];

// A tree with a thing in its holes; nothing where a name alone may stand there, and it is none.
function filled(node, { name, expr }, at = null) {
  if (Array.isArray(node)) {
    const made = node.map((each) => filled(each, { name, expr }));
    return made.includes(undefined) ? undefined : made;
  }
  if (node === null || typeof node !== 'object') return node;
  if (node.Ident && node.Ident.sym === 'hole' && !KEYS.includes(at)) return structuredClone(expr);
  if (node.sym === 'hole') return name === null ? undefined : { ...node, sym: name };
  const made = {};
  for (const [key, part] of Object.entries(node)) {
    made[key] = filled(part, { name, expr }, key);
    if (made[key] === undefined) return undefined;
  }
  return made;
}

const expressionPlaces = () => [...EXPRESSIONS, ...NEW_EXPRESSIONS].map((text) => ({ text, expr: bodyOf(`(${text});`, 'script')[0].Expr.expr.Paren.expr }));
const strict = (body) => [{ Expr: { span: NOWHERE, expr: filled(bodyOf('(class { a() { hole; } });', 'script')[0].Expr.expr, named('a')) } }].map((stmt) => {
  stmt.Expr.expr.Paren.expr.Class.class.body[0].Method.function.body.stmts = body;
  return stmt;
});

const script = (body) => ({ Script: { span: NOWHERE, body, shebang: null } });
const module_ = (body) => ({ Module: { span: NOWHERE, body, shebang: null } });
const inModule = (stmt) => (stmt.Stmt || stmt.ModuleDecl ? stmt : { Stmt: stmt });

// What is made of a statement: a script, a module, and strict code of a script.
function* programs(text, body) {
  const ofModule = body.some((each) => each.Stmt || each.ModuleDecl);
  yield { text, goal: 'module', tree: module_(body.map(inModule)) };
  if (ofModule) return;
  yield { text, goal: 'script', tree: script(body) };
  yield { text, goal: 'strict', tree: script(strict(body)) };
}

// All of them: each thing in each place, or with `deep` in each place of an expression that stands in each place; of these those that `isTaken` says.
function* contexts({ deep = false, isTaken = () => true } = {}) {
  const inner = expressionPlaces(), things = [...NAMES.map(named), ...OPERATORS.map(operator)];
  const statement = ({ text, expr }) => ({ text: `${text};`, body: [{ Expr: { span: NOWHERE, expr } }] });
  const places = [
    ...[...STATEMENTS, ...NEW_STATEMENTS].map((text) => ({ text, body: bodyOf(text, 'script') })), ...inner.map(statement),
    ...MODULE_ITEMS.map((text) => ({ text, body: bodyOf(text, 'module') })),
  ];
  for (const { text: place, body } of places) {
    for (const thing of deep ? [] : things) {
      const made = isTaken() && filled(body, thing);
      if (made) yield* programs(`${place} with ${thing.text}`, made);
    }
    for (const { text, expr } of deep ? inner : []) {
      for (const thing of things) {
        const within = isTaken() && filled(expr, thing), made = within && filled(body, { name: null, expr: within });
        if (made) yield* programs(`${place} with ${text} with ${thing.text}`, made);
      }
    }
  }
}

module.exports = { contexts };
