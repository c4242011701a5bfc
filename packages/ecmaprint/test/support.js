'use strict';
// What the tests share: parsers, real files, and whether a text is read as an AST.
const assert = require('node:assert');
const { existsSync, readFileSync } = require('fs');
const { join } = require('path');
const { parse } = require('@babel/parser');
const acorn = require('acorn');
const { difference } = require('../../babel-plugin-ecmaprint/same.js');

const NODEJS = '/usr/share/nodejs';

// Files of Debian's packages.
const REAL = [
  'acorn/dist/acorn.js', 'commander/lib/command.js', 'glob/glob.js', 'picomatch/lib/parse.js', 'jsesc/jsesc.js', 'semver/classes/range.js',
  'readable-stream/lib/_stream_readable.js', 'resolve/lib/async.js', 'minimatch/minimatch.js', 'source-map/lib/source-map-consumer.js',
].map((name) => join(NODEJS, name)).filter(existsSync);

const read = (file) => readFileSync(file, 'utf8');
const babel = (code, plugins = [], more = {}) => parse(code, { sourceType: 'unambiguous', plugins, ...more });
const typescript = (code) => babel(code, ['typescript']);

function estree(code, more = {}) {
  const comments = [];
  return Object.assign(acorn.parse(code, { ecmaVersion: 'latest', sourceType: 'module', locations: true, onComment: comments, ...more }), { comments });
}

// Asserts that a text is read by Babel's parser as this AST.
function assertReadAs(text, ast, { plugins = [], minify = false, ...more } = {}) {
  const again = babel(text, plugins, { sourceType: (ast.program || ast).sourceType, ...more });
  assert.strictEqual(difference(ast.program || ast, again.program, { minify }), null, text.slice(0, 400));
}

// Texts with plugins of Babel's parser: each type of node with each of its members, at least once.
const TEXTS = [
  ['#!a\n"use strict"; import a, { b as c, type d } from "e" assert { type: "f" }; import * as g from "h"; import type i from "j"; let k; export { k as l }; export type { m } from "n"; export * from "o"; export * as p from "q"; export default class {} ', []],
  ['export const a = 1, b = 2; export default function f() {} export abstract class G {} export declare const h: I; export import j = k.l; import m = require("n"); import type o = p', []],
  ['export = a', []], ['export as namespace a', []], ['export default interface A {}', []], ['export default abstract class A {}', []],
  ['let [a, , b = 1, ...c]: D = e, { f, g: h, i = 1, [j]: k, ...l }: M = n, o!: P; var q; const r = 1; declare let s: T; declare function u(v?: W, ...x): { y: z }; declare class Z {} declare namespace A1.B1 {} declare module "c1"; declare global { let d1 }', []],
  ['a = b ? c : d, e; f += (g); h?.i?.[j]?.(k); l.m[n](...o); new P(q); r`s${t}u`; ({ v, w: 1, [x]: y, z() {}, get a1() {}, set a1(b1) {}, async *c1() {}, ...d1, "e1": 2, 3: 4, 5n: 6 }); [f1, , ...g1]; !h1; i1++; --j1; k1 && l1; l1 ?? m1', []],
  ['async function* f<T extends A = B>(this: C, a?: D, b = 1, ...c: E[]): AsyncGenerator<F> { await a; yield; yield* b; for await (const c of d); return; new.target } var g = async <T>(a): Promise<T> => b, h = function* i(): J {}, k = class L<M> extends N<O> implements P<Q>, R {}', []],
  ['class A { private static readonly a?: B = 1; #b: C = 2; static #c; declare d; e!: F; [g]; constructor(private readonly h: I, j = 1) { super(); super.k } get l() { return this.#b } set l(m) {} async *n<O>(p): Q {} protected abstract r(): S; override t() {} u?(): V; static { w } readonly [x: string]: y; static accessor z = 1; "a1"() {} #b1() {} }', ['decoratorAutoAccessors']],
  ['@a @b.c(d) class E { @f g; @h i() {} j(@k l) {} constructor(@m private n) {} }', ['decorators-legacy']],
  ['if (a) b; else c; for (let d = 1; e; f) g; for (var h in i); for (j of k); while (l) m; do n; while (o); p: { break p } q: for (;;) continue q; switch (r) { case s: t; default: } try { throw u } catch (v) {} finally {} debugger; ; with (w) x', []],
  ['<a b="c" {...d} e:f={g} h><i.j.k />{l}{/* m */}{...n}o &amp; p<></></a>; <q<R> />', ['jsx']],
  ['a as b; c as const; d!; e satisfies F; g<h>; i<J>(k); new l<M>(); n<O>`p`; import("q"); import.meta', []],
  ['<a>b', []],
  ['type A<in out B extends C = D> = keyof E | unique symbol & F[] | [G, H?, ...I[], ] | [j: K, l?: M, ...n: O[]] | (() => P) | (new <Q>(r: S) => T) | (abstract new () => U) | { +readonly [V in W as X]-?: Y } | Z["a1"] | (B1 extends infer C1 extends D1 ? E1 : F1) | "g1" | 1 | -2 | 3n | true | `h1${I1}` | typeof j1.k1<L1> | import("m1").n1<O1> | this | any', []],
  ['interface A<B> extends C.D<E>, F { (g: H): I; new <J>(k): L; m?: N; readonly o: P; q?<R>(s: T): U; get v(): W; set x(y); readonly [z: string]: A1; [b1]: C1; "d1"(): E1 } const enum F1 { g1 = 1, "h1" } declare enum I1 {} function j1(k1): asserts k1 is L1; function m1(n1): n1 is O1', []],
  ['a = 1; b = 0x2n; c = "d"; e = /f/g; h = null; i = true; j = `k`; l = this; m = function () { "use strict" }; n = /* o */ p // q', []],
];

module.exports = { REAL, TEXTS, NODEJS, read, babel, typescript, estree, assertReadAs, difference };
