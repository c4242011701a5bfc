'use strict';
// The short form of trees, and positions where they are needed alone.
const assert = require('node:assert');
const { mkdtempSync, rmSync, writeFileSync } = require('fs');
const { tmpdir } = require('os');
const { join } = require('path');
const { test, after } = require('node:test');
const { REAL, TEXTS, babel, read } = require('./support.js');
const { AstTree, write } = require('../lib/tree_of/ast_tree.js');
const { COMMENTS, SILENT, TYPES } = require('../lib/tree_of/members.js');
const { UNPLACED } = require('../lib/comments.js');
const { Spawning } = require('../lib/channels.js');
const { built } = require('../lib/numbered_tree.js');
const { programPath } = require('../lib/programs.js');
const { Call } = require('../lib/request.js');
const { Printer, printSync, end } = require('..');

const folder = mkdtempSync(join(tmpdir(), 'ecmaprint-short-'));
after(() => rmSync(folder, { recursive: true }));
after(end);

const PROGRAMS = [
  ...TEXTS.map(([text, plugins]) => babel(text, ['typescript', ...plugins, 'importAssertions'], { errorRecovery: true })),
  ...REAL.map((file) => babel(read(file), [], { allowReturnOutsideFunction: true })),
];

function treeOf(program, isShort) {
  const source = new AstTree({ positions: 'none', isShort });
  write(source, program);
  return JSON.parse(source.written());
}
const isNowhere = (value) => value !== null && typeof value === 'object' && value.lo === 0 && value.hi === 0;

// Spellings that the short form leaves out: the program prints the same without them.
const IS_LEFT_OUT = /^(?:\d|[1-9]\d{0,13}[1-9]|"[\w $!#%()*+,\-./:;<=>?@[\]^{|}~]*")$/;

// A tree without its defaults. Where a member may be null, another value of it isn't one: the arguments of `new`, the place of `...`.
function shortened(value, name) {
  if (Array.isArray(value)) return value.map((each) => shortened(each));
  if (value === null || typeof value !== 'object') return value;
  const kept = Object.entries(value).filter(([each, part]) => {
    if (part === null || part === false) return false;
    if (each === 'raw' && name !== 'JSXText') return !IS_LEFT_OUT.test(part);
    return !(Array.isArray(part) && part.length === 0) && (each === 'spread' || !isNowhere(part));
  });
  return Object.fromEntries(kept.map(([each, part]) => [each, shortened(part, each)]));
}

test('the short form has what the whole one has', () => {
  for (const { program } of PROGRAMS) assert.deepStrictEqual(shortened(treeOf(program, true)), shortened(treeOf(program, false)));
  const text = JSON.stringify(treeOf(babel('new A; f(...b); function g() {}').program, true));
  assert.ok(text.includes('"args":[]') && text.includes('"spread":{"lo":0,"hi":0}'), text);
  assert.ok(!/null|false|"span"/.test(text), text);
});

test('which nodes have no position in a tree', () => {
  const without = new Set(), having = new Set();
  for (const { program } of PROGRAMS) {
    const { source } = built(program, { everywhere: 'all' }), placed = new Set([...source.nodes, ...source.apart]);
    const walk = (value) => {
      if (Array.isArray(value)) value.forEach(walk);
      else if (value !== null && typeof value === 'object') {
        if (TYPES.has(value.type) && TYPES.get(value.type).held.length > 0) (placed.has(value) ? having : without).add(value.type);
        for (const name of Object.keys(value)) if (!SILENT.has(name) && !COMMENTS.includes(name)) walk(value[name]);
      }
    };
    walk(program);
  }
  const never = [...without].filter((type) => !having.has(type));
  assert.deepStrictEqual(never.filter((type) => !UNPLACED.has(type)), []);
});

test('a map changes nothing in the text, nor do comments that are left out', () => {
  for (const file of REAL) {
    const ast = babel(read(file), [], { allowReturnOutsideFunction: true });
    for (const options of [{}, { minify: true }, { comments: false }]) {
      const { code } = printSync(ast, { ...options, any: 'retry' });
      assert.strictEqual(printSync(ast, { ...options, any: 'retry', sourceMaps: true }).code, code, file);
    }
  }
});

test('a case with one statement', () => {
  const ast = babel('switch (a) { case 1: b; case 2: { c } default: /* d */ e }');
  assert.strictEqual(printSync(ast).code, 'switch(a){\n    case 1:\n        b;\n    case 2: {\n        c;\n    }\n    default:\n        /* d */ e;\n}');
  assert.strictEqual(printSync(ast, { minify: true, comments: false }).code, 'switch(a){case 1:b;case 2:{c}default:e}');
});

test('a program that reads the whole form alone gets it, and prints the same', () => {
  const channel = new Spawning(programPath()), ask = (call) => {
    for (let line = call.line; line !== null;) line = call.next(channel.answer(line));
    return call.result();
  };
  for (const code of ['/* a */ new A; f(...b); switch (c) { case 1: d }', 'class A { static #b = [1, , 2]; async *m(a = 1, ...b) { return a?.b } }', `${'!'.repeat(200)}a`]) {
    const ast = babel(code);
    for (const options of [{}, { minify: true }, { sourceMaps: true }]) {
      const [short, whole] = [true, false].map((isShort) => new Call(ast, options, code, { isShort }));
      assert.ok(whole.line.includes('"span":{"lo":0,"hi":0}') || options.sourceMaps || whole.isFlat);
      assert.deepStrictEqual({ ...ask(whole) }, { ...ask(short) });
    }
  }
  const program = join(folder, 'whole');
  writeFileSync(program, `#!/bin/sh\nread line; echo '{"error":{"kind":"bad tree","message":"missing field"}}'; exec ${programPath()}\n`, { mode: 0o755 });
  const printer = new Printer({ program, isShort: true });
  for (const code of ['a', 'b']) assert.strictEqual(printer.printSync(babel(code)).code, `${code};`);
  assert.strictEqual(printer.isShort, false);
  printer.end();
});
