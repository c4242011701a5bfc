'use strict';
// Bad input: an error with the path, and the next call works.
const assert = require('node:assert');
const { mkdtempSync, rmSync, writeFileSync } = require('fs');
const { tmpdir } = require('os');
const { join } = require('path');
const { test, after } = require('node:test');
const t = require('@babel/types');
const { babel, typescript, estree } = require('./support.js');
const { Printer, print, printSync, PrintError, end } = require('..');

after(end);

// Asserts that an AST isn't printed, by either function, and that the next call works.
async function refused(ast, expected, options, code) {
  const check = (error) => {
    assert.ok(error instanceof PrintError, error.stack);
    for (const name in expected) {
      if (expected[name] instanceof RegExp) assert.match(error[name], expected[name]);
      else assert.deepStrictEqual(error[name], expected[name], `${name} of ${error.message}`);
    }
    return true;
  };
  assert.throws(() => printSync(ast, options, code), check);
  await assert.rejects(print(ast, options, code), check);
  assert.strictEqual(printSync(babel('a')).code, 'a;');
  assert.strictEqual((await print(babel('a'))).code, 'a;');
}

test('what is no AST', async () => {
  for (const ast of [null, undefined, 5, 'a', [], {}, { type: 5 }]) await refused(ast, { kind: 'unsupported', reason: /no `type`/ });
});

test('an unknown type, at its place', async () => {
  const code = 'x = 1;\ny = 2', ast = babel(code);
  ast.program.body[1].expression.right = { type: 'FooExpression', loc: ast.program.body[1].expression.right.loc };
  const frame = '  1 | x = 1;\n> 2 | y = 2\n    |     ^';
  await refused(ast, { kind: 'unsupported', path: ['program', 'body', 1, 'expression', 'right'], loc: { line: 2, column: 4 }, frame, reason: /^FooExpression is no type/ }, {}, code);
});

test('members of wrong types', async () => {
  const at = (change) => {
    const ast = babel('a.b(c);');
    change(ast.program.body[0].expression);
    return ast;
  };
  const path = (...steps) => ['program', 'body', 0, 'expression', ...steps];
  await refused(at((call) => { call.callee.property = 5; }), { path: path('callee', 'property'), reason: '`property` of MemberExpression has number, which is no node' });
  await refused(at((call) => { call.arguments = {}; }), { path: path('arguments') });
  await refused(at((call) => { call.arguments = [null]; }), { path: path('arguments', 0) });
  await refused(at((call) => { delete call.callee; }), { path: path('callee') });
  await refused(at((call) => { call.arguments[0].name = 5; }), { path: path('arguments', 0, 'name') });
  await refused(at((call) => { call.arguments[0] = t.templateElement({ raw: 'a' }); }), { path: path('arguments', 0) });
  await refused(at((call) => { call.callee.computed = 'yes'; }), { path: path('callee', 'computed') });
});

test('names that are none: the program tells by the path through its tree', async () => {
  const code = 'let a = 1;\nfoo(b);', ast = babel(code);
  ast.program.body[1].expression.arguments[0].name = 'b c';
  await refused(ast, { kind: 'not well-formed', path: ['program', 'body', 1, 'expression', 'arguments', 0], loc: { line: 2, column: 4 } }, {}, code);
  const other = estree('class A { m() { return a.b } }');
  other.body[0].body.body[0].value.body.body[0].argument.property.name = '';
  await refused(other, { kind: 'not well-formed', path: ['body', 0, 'body', 'body', 0, 'value', 'body', 'body', 0, 'argument', 'property'] });
});

test('an AST that holds itself', async () => {
  const ast = babel('a.b');
  ast.program.body[0].expression.object = ast.program.body[0].expression;
  await refused(ast, { kind: 'unsupported', path: ['program', 'body', 0, 'expression', 'object'], reason: 'the AST holds itself here' });
  const other = estree('f(a)');
  other.body[0].expression.arguments.push(other);
  await refused(other, { path: ['body', 0, 'expression', 'arguments', 1] });
});

test('an AST of 10,000 levels', async () => {
  let ast = t.identifier('a');
  for (let level = 0; level < 10000; level++) ast = t.unaryExpression('!', ast);
  await refused(ast, { kind: 'unsupported', reason: 'the AST nests 10001 levels deep, which is too deep', path: Array(10000).fill('argument') });
});

test('an AST that is deeper than JSON may be is printed', () => {
  let ast = t.identifier('a');
  for (let level = 0; level < 500; level++) ast = t.unaryExpression('!', ast);
  assert.strictEqual(printSync(ast).code, `${'!'.repeat(500)}a`);
});

test('a refusal that the program tells without words', () => {
  const folder = mkdtempSync(join(tmpdir(), 'ecmaprint-errors-')), program = join(folder, 'refusing');
  after(() => rmSync(folder, { recursive: true }));
  writeFileSync(program, '#!/bin/sh\nwhile read line; do echo \'{"error":{"kind":"too deep"}}\'; done\n', { mode: 0o755 });
  const printer = new Printer({ program });
  assert.throws(() => printer.printSync(babel('a')), { kind: 'too deep', code: 'ECMAPRINT_TOO_DEEP', reason: /^parentheses are missing/ });
  printer.end();
});

test('one node in many places is no cycle', () => {
  const a = t.identifier('a');
  assert.strictEqual(printSync(t.callExpression(a, [a, a])).code, 'a(a, a)');
});

test('what the tree has no place for', async () => {
  const cases = [
    ['class A { readonly accessor x = 1 }', ['decoratorAutoAccessors'], 'readonly'],
    ['class A { declare #x }', [], 'declare'],
    ['class A { "constructor"?() }', [], 'optional'],
    ['x = { get m(this: T) { return 1 } }', [], 'params'],
    ['import module a from "a"', ['importReflection'], 'module'],
    ['function* f() { function.sent }', ['functionSent'], 'function.sent'],
    ['x = ({ @d a: 1 })', ['decorators-legacy'], 'decorators'],
    ['interface A { get a: string }', [], 'kind'],
  ];
  for (const [code, plugins, words] of cases) {
    let ast;
    try {
      ast = babel(code, ['typescript', ...plugins], { errorRecovery: true });
    } catch (error) {
      continue; // (another parser than Debian's)
    }
    await refused(ast, { kind: 'unsupported', reason: new RegExp(words.replace('.', '\\.')) });
  }
  for (const code of ['f<T>()', 'var a: ?b', 'import typeof a from "a"', 'class A { +p: T }', 'type A = {| a: b |}']) await refused(babel(code, [['flow', { all: true }]]), { kind: 'unsupported' });
});

test('comments that would end early', async () => {
  const ast = babel('a');
  ast.program.body[0].leadingComments = [{ type: 'CommentBlock', value: ' */ evil() /* ' }];
  await refused(ast, { kind: 'unsupported', reason: /holds `\*\/`/, path: ['program', 'body', 0] });
  const line = babel('a');
  line.program.body[0].leadingComments = [{ type: 'CommentLine', value: ' b\nevil()' }];
  assert.strictEqual(printSync(line).code, '/* b\nevil()*/ a;');
});
