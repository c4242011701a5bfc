'use strict';
// ASTs of ESTree: of acorn and espree, and what typescript-estree names otherwise.
const assert = require('node:assert');
const { test, after } = require('node:test');
const acorn = require('acorn');
const { REAL, babel, estree, read, assertReadAs, difference } = require('./support.js');
const { printSync, end } = require('..');

after(end);
const text = (ast, options) => printSync(ast, options).code;

test('what acorn and espree read of real files', () => {
  const espree = require('espree');
  for (const file of REAL) {
    const code = read(file), ours = estree(code, { sourceType: 'script', allowReturnOutsideFunction: true });
    assertReadAs(text(ours, { any: 'retry' }), babel(code, [], { allowReturnOutsideFunction: true }), { sourceType: 'script', allowReturnOutsideFunction: true });
    const theirs = espree.parse(code, { ecmaVersion: 'latest', sourceType: 'commonjs', comment: true, loc: true, range: true });
    assertReadAs(text(theirs, { any: 'retry' }), babel(code, [], { allowReturnOutsideFunction: true }), { sourceType: 'script', allowReturnOutsideFunction: true });
  }
});

test('each form of ECMAScript', () => {
  const cases = [
    'a?.b.c; a?.[b]; a?.(b); (a?.b).c; (a?.b)(); a?.b`c`.d'.replace('a?.b`c`.d', '(a?.b)`c`'), 'class A { static #p = 1; #q() {} get r() {} set r(x) {} static { this.#q() } static async *s() {} "t" = 1; [u] }',
    'x = { a, b: c, [d]: e, f() {}, get g() {}, set g(h) {}, async *i() {}, ...j, "k": 1, 2: 3 }', 'import a, { b as c, "d e" as f } from "g"; import * as h from "i"; export { a, c as d } from "j"; export * from "k"; export * as l from "m"; export default 1',
    'import("a"); import.meta; new.target'.replace('; new.target', ''), 'a = 1n; b = /c/g; d = null; e = true; f = 0x1f; g = `h${i}j`; k = "l"', 'for await (const a of b); label: for (;;) { continue label }', '({ a: [b = 1, ...c], ...d } = e)',
    'try { a } catch { b } finally { c }', 'switch (a) { case 1: b; default: c }', 'a ??= b; a ||= b; a **= b', 'async (a, { b } = {}, ...c) => await a; function* f() { yield* g }',
  ];
  for (const code of cases) {
    const ast = estree(code);
    const again = estree(text(ast)), plain = (value) => JSON.stringify(value, (name, part) => (/^(?:start|end|loc|raw|comments)$/.test(name) ? undefined : typeof part === 'bigint' ? String(part) : part));
    assert.strictEqual(plain(again), plain(ast));
  }
});

test('a hashbang, which acorn has as a comment', () => {
  const code = '#!/usr/bin/env node\na', comments = [];
  const ast = acorn.parse(code, { ecmaVersion: 'latest', allowHashBang: true, onComment: comments });
  assert.match(printSync({ ...ast, comments }, {}, code).code, /^#!\/usr\/bin\/env node\n\s*a;$/);
});

test('places by offsets alone', () => {
  const code = 'a;\n  b', ast = acorn.parse(code, { ecmaVersion: 'latest' });
  const { rawMappings } = printSync(ast, { sourceMaps: true, sourceFileName: 'x.js' }, code);
  assert.deepStrictEqual(rawMappings.map(({ original, name }) => [original.line, original.column, name]).filter(([, , name]) => name), [[1, 0, 'a'], [2, 2, 'b']]);
});

// As typescript-estree has it, of an AST that Babel's parser makes by its plugin for ESTree.
test('TypeScript in the shape of ESTree', () => {
  const cases = [
    'abstract class A<T> extends B<T> implements C<D> { abstract m(): void; private readonly x?: string = "1"; constructor(private a: B) { super() } declare y; static override z!: T }',
    'let f = <T,>(a: T): a is string => a as any; g<string>(h!); i satisfies J; type K = { [L in M]?: N }; enum O { P = 1, "Q" }',
    'a?.b!.c; (a?.b)!.c; interface R extends S<T> { (u: V): W; new (x: Y): Z; m?(): void; readonly [k: string]: any }',
    'namespace A.B { export let c } declare module "d" { export = e } import f = require("g"); export import h = i.j; export as namespace k',
    'type X = A extends infer B ? `a${B}c` : typeof import("x"); function f(this: A): asserts a is B; function f() {} type Y = [a: B, c?: D, ...e: F[]]',
  ];
  for (const code of cases) {
    for (const plugins of [['typescript', 'estree'], ['typescript']]) {
      const ast = babel(code, plugins, { sourceType: 'module' }), again = babel(text(ast), plugins, { sourceType: 'module' });
      assert.strictEqual(difference(ast.program, again.program), null, text(ast));
    }
  }
});

test('a link with type arguments stays one', () => {
  for (const plugins of [['typescript', 'estree'], ['typescript']]) assert.match(text(babel('a?.b<c>', plugins)), /a\?\.b\)?<c>/);
});

const name = (word) => ({ type: 'Identifier', name: word });
const program = (...body) => ({ type: 'Program', sourceType: 'module', body });
const reference = (word) => ({ type: 'TSTypeReference', typeName: name(word) });

test('names of later versions of typescript-estree', () => {
  const call = { type: 'CallExpression', callee: name('f'), optional: false, arguments: [], typeArguments: { type: 'TSTypeParameterInstantiation', params: [reference('A')] } };
  assert.strictEqual(text(program({ type: 'ExpressionStatement', expression: call })), 'f<A>();');
  const parameter = { type: 'TSTypeParameter', name: name('T'), in: false, out: false, const: false };
  const declared = { type: 'TSTypeParameterDeclaration', params: [parameter] };
  const alias = { type: 'TSTypeAliasDeclaration', id: name('A'), declare: false, typeParameters: declared, typeAnnotation: { type: 'TSFunctionType', params: [], returnType: { type: 'TSTypeAnnotation', typeAnnotation: reference('T') } } };
  assert.strictEqual(text(program(alias)), 'type A<T> = () => T;');
  const mapped = { type: 'TSMappedType', key: name('K'), constraint: reference('A'), nameType: null, optional: '-', readonly: true, typeAnnotation: reference('B') };
  assert.match(text(program({ ...alias, typeParameters: undefined, typeAnnotation: mapped })), /readonly \[K in A\]-\?: B/);
  const body = { type: 'TSEnumBody', members: [{ type: 'TSEnumMember', id: name('a'), computed: false }] };
  assert.match(text(program({ type: 'TSEnumDeclaration', id: name('E'), const: true, declare: false, body })), /const enum E \{\s*a\s*\}/);
  const block = { type: 'TSModuleBlock', body: [] }, id = { type: 'TSQualifiedName', left: name('a'), right: name('b') };
  assert.match(text(program({ type: 'TSModuleDeclaration', kind: 'namespace', id, body: block, declare: false, global: false })), /(?:namespace|module) a\.b \{\s*\}/);
});
