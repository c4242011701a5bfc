'use strict';
// Babel's core with its presets over real files: what the plugin prints is read as the AST that Babel's own text has. With ECMAPRINT_ALL these
// are all files of some packages; else some of them.
const assert = require('node:assert');
const { execFileSync } = require('child_process');
const { existsSync, mkdtempSync, readFileSync, readdirSync, rmSync, statSync, writeFileSync } = require('fs');
const { tmpdir } = require('os');
const { join } = require('path');
const { test, after } = require('node:test');
const babel = require('@babel/core');
const { parse } = require('@babel/parser');
const { SourceMapConsumer } = require('source-map');
const { difference } = require('../same.js');
const plugin = require('..');

after(() => plugin.end());

const NODEJS = '/usr/share/nodejs';
const preset = (name) => require.resolve(`@babel/preset-${name}`);

// Files below a folder, in order.
function filesIn(folder, isWanted, found = []) {
  for (const name of readdirSync(folder).sort()) {
    const path = join(folder, name);
    if (statSync(path, { throwIfNoEntry: false })?.isDirectory()) filesIn(path, isWanted, found);
    else if (isWanted(path)) found.push(path);
  }
  return found;
}

const FOLDERS = ['@babel/generator/lib', '@babel/traverse/lib', '@babel/plugin-transform-classes/lib', 'commander', 'glob', 'minimatch', 'picomatch/lib', 'rollup/dist/shared', 'semver', 'source-map/lib'];
const JAVASCRIPT = FOLDERS.map((name) => join(NODEJS, name)).filter(existsSync).flatMap((folder) => filesIn(folder, (path) => /\.js$/.test(path) && !/min\.js$/.test(path)))
  .filter((path) => statSync(path).size < 30000).filter((path, at) => at % (process.env.ECMAPRINT_ALL ? 1 : 12) === 0);
const TYPED = ['@babel/types/lib/index.d.ts'].map((name) => join(NODEJS, name)).filter(existsSync);

const TSX = `
import React, { type FC } from 'react';
enum Colour { Red = 'red', Green = 1 << 2 }
/** A list. */
export const List: FC<{ items: readonly string[] }> = ({ items, ...others }) => {
  const [first, ...rest] = items; // the first
  return <ul {...others}>{items.map((item) => <li key={item} className={Colour.Red as string}>{item} &amp; more{rest?.length ?? 0}</li>)}<>{first!}</></ul>;
};
export default abstract class Base<T> { private x?: T; constructor(protected readonly y: number) {} static async *m() { yield* await import('a'); } }
`;

const GIVEN = { babelrc: false, configFile: false, sourceMaps: true, sourceType: 'unambiguous', targets: 'ie 11' };

// What Babel makes of a text, by its own generator and by the plugin.
function both(code, options) {
  const fallbacks = [];
  const theirs = babel.transformSync(code, { ...GIVEN, ...options });
  const ours = babel.transformSync(code, { ...GIVEN, ...options, plugins: [...(options.plugins || []), [plugin, { onFallback: (error) => fallbacks.push(error.message) }]] });
  return { theirs, ours, fallbacks };
}

const read = (text) => parse(text, { sourceType: 'unambiguous', allowReturnOutsideFunction: true, allowUndeclaredExports: true, plugins: ['jsx'] });

// Babel's generator leaves out parentheses of `a && (b && c)`, which change the AST and not its value.
const isRegrouped = (words) => words !== null && /^LogicalExpression\./.test(words);

function assertSame(code, options) {
  const { theirs, ours, fallbacks } = both(code, options), found = difference(read(theirs.code).program, read(ours.code).program, { minify: !!options.minified });
  assert.ok(found === null || isRegrouped(found), `${options.filename}: ${found}`);
  assert.deepStrictEqual(fallbacks, [], options.filename);
  return { theirs, ours };
}

test('files of Debian by preset-env, pretty and minified', () => {
  assert.ok(JAVASCRIPT.length > 5, String(JAVASCRIPT.length));
  for (const filename of JAVASCRIPT) {
    const code = readFileSync(filename, 'utf8'), { theirs, ours } = assertSame(code, { filename, presets: [preset('env')] });
    assert.strictEqual(read(ours.code).comments.length, read(theirs.code).comments.length, filename);
    assertSame(code, { filename, presets: [preset('env')], minified: true, comments: false });
  }
});

test('preset-react and preset-typescript', () => {
  const presets = [preset('env'), preset('react'), [preset('typescript'), { isTSX: true, allExtensions: true }]];
  for (const filename of ['a.tsx', ...TYPED]) {
    const code = filename === 'a.tsx' ? TSX : readFileSync(filename, 'utf8');
    assertSame(code, { filename, presets: filename === 'a.tsx' ? presets : [preset('typescript')] });
  }
  assertSame(TSX, { filename: 'a.tsx', presets: [presets[2]], minified: true });
});

test('maps lead to the names of the source', () => {
  const code = readFileSync(join(NODEJS, 'minimatch/minimatch.js'), 'utf8'), lines = code.split('\n');
  for (const minified of [false, true]) {
    const { ours } = both(code, { filename: 'minimatch.js', presets: [preset('env')], minified });
    let count = 0;
    new SourceMapConsumer(ours.map).eachMapping(({ name, originalLine, originalColumn }) => {
      if (name === null) return;
      count++;
      assert.ok(lines[originalLine - 1].slice(originalColumn).startsWith(name), name);
    });
    assert.ok(count > 1000, String(count));
    assert.deepStrictEqual(ours.map.sources, ['minimatch.js']);
  }
});

test('what the printer has no form for is printed by Babel, or is an error', () => {
  const flow = 'type A = {| b: C |};', options = { ...GIVEN, filename: 'a.js', parserOpts: { plugins: ['flow'] } }, told = [];
  const { code } = babel.transformSync(flow, { ...options, plugins: [[plugin, { onFallback: (error, name) => told.push([error.kind, name]) }]] });
  assert.match(code, /^type A = \{\|/);
  assert.strictEqual(told.length, 1);
  assert.strictEqual(told[0][0], 'unsupported');
  assert.throws(() => babel.transformSync(flow, { ...options, plugins: [[plugin, { fallback: 'error' }]] }), /Flow/);
});

test('a CommonJS module with `return`', () => {
  const options = { ...GIVEN, filename: 'a.js', sourceType: 'script', parserOpts: { allowReturnOutsideFunction: true } };
  const { code } = babel.transformSync('if (a) return; b', { ...options, plugins: [[plugin, { fallback: 'error' }]] });
  assert.strictEqual(code, 'if (a) return;\nb;');
});

test('babel.config.json of the README', () => {
  const config = JSON.parse(/```json\n([^]*?)```/.exec(readFileSync(join(__dirname, '../README.md'), 'utf8'))[1]);
  const folder = mkdtempSync(join(tmpdir(), 'ecmaprint-babel-'));
  try {
    writeFileSync(join(folder, 'babel.config.json'), JSON.stringify(config));
    writeFileSync(join(folder, 'a.js'), 'const a = () => 1; // b\n');
    const text = "const babel = require('@babel/core'); console.log(babel.transformFileSync('a.js').code)";
    const shown = execFileSync(process.execPath, ['-e', text], { cwd: folder, encoding: 'utf8', env: { ...process.env, NODE_PATH: process.env.NODE_PATH } });
    assert.match(shown, /"use strict";\n\s*var a = function a\(\) \{\n    return 1;\n\}; \/\/ b/);
  } finally {
    rmSync(folder, { recursive: true });
  }
});
