'use strict';
// Source maps, by the library source-map.
const assert = require('node:assert');
const { test, after } = require('node:test');
const { SourceMapConsumer } = require('source-map');
const { REAL, babel, read } = require('./support.js');
const { printSync, end } = require('..');

after(end);

// The mappings with names whose place in the source, or in the text, is another name's.
function wrong(map, text) {
  const consumer = new SourceMapConsumer(map), lines = text.split(/\r\n|[\n\r\u2028\u2029]/), sources = new Map(), found = [];
  let named = 0;
  consumer.eachMapping(({ source, originalLine, originalColumn, generatedLine, generatedColumn, name }) => {
    if (name === null) return;
    named++;
    if (!sources.has(source)) sources.set(source, consumer.sourceContentFor(source).split(/\r\n|[\n\r\u2028\u2029]/));
    const there = sources.get(source)[originalLine - 1].slice(originalColumn), here = lines[generatedLine - 1].slice(generatedColumn);
    if (!there.startsWith(name) || !(here.startsWith(name) || here.startsWith('\\') || here.startsWith('"'))) found.push([name, there.slice(0, 20), here.slice(0, 20)]);
  });
  return { found, named };
}

test('names of real files are at their places, pretty and minified', () => {
  for (const file of REAL) {
    const code = read(file), ast = babel(code, [], { allowReturnOutsideFunction: true });
    for (const minify of [false, true]) {
      const { code: text, map } = printSync(ast, { minify, sourceMaps: true, sourceFileName: file, any: 'retry' }, code);
      const { found, named } = wrong(map, text);
      assert.ok(named > 100, file);
      assert.deepStrictEqual(found, [], file);
    }
  }
});

test('names beyond ASCII, CR LF, tabs, U+2028 in strings', () => {
  const code = 'let é = 1;\r\n\tlet 𝒳𝒴 = é, y = "\u2028";\r\n\t/* ü */ f(y, é, 𝒳𝒴);\r\n`\u2028${y}`; é;', ast = babel(code);
  for (const options of [{}, { minify: true }, { indent: '\t', endOfLine: 'crlf' }]) {
    const { code: text, map } = printSync(ast, { ...options, sourceMaps: true, sourceFileName: 'a.js' }, code), { found, named } = wrong(map, text);
    assert.deepStrictEqual(found, [], text);
    assert.ok(named >= 8, String(named));
  }
});

test('what the map names', () => {
  const code = 'a', options = { sourceMaps: true, sourceFileName: 'a.js', sourceRoot: '/src', file: 'out.js' };
  assert.deepStrictEqual(printSync(babel(code), options, code).map, { version: 3, file: 'out.js', sourceRoot: '/src', sources: ['a.js'], sourcesContent: ['a'], names: ['a'], mappings: 'AAAAA' });
  assert.strictEqual(printSync(babel(code), { ...options, sourcesContent: false }, code).map.sourcesContent, undefined);
  assert.strictEqual(printSync(babel(code), {}, code).map, null);
});

test('several sources in one AST', () => {
  const one = babel('a;\nb', [], { sourceFilename: 'one.js' }), two = babel('\n\n  c', [], { sourceFilename: 'two.js' });
  one.program.body.push(...two.program.body);
  const { map } = printSync(one, { sourceMaps: true, sourceFileName: 'one.js' }, { 'one.js': 'a;\nb', 'two.js': '\n\n  c' }), consumer = new SourceMapConsumer(map);
  const { source, line, column } = consumer.originalPositionFor({ line: 3, column: 0 });
  assert.deepStrictEqual([source, line, column], ['two.js', 3, 2]);
  assert.deepStrictEqual(map.sourcesContent, ['a;\nb', '\n\n  c']);
});

test('a map led through the map of its source', () => {
  const { transformSync } = require('@babel/core');
  const code = 'interface A { x: number }\nexport const total = (list: A[]): number => {\n  let sum = 0;\n  for (const item of list) sum += item.x;\n  return sum;\n};\n';
  const first = transformSync(code, { filename: 'a.ts', babelrc: false, configFile: false, presets: [require.resolve('@babel/preset-typescript')], sourceMaps: true });
  const { code: text, map } = printSync(babel(first.code), { minify: true, sourceMaps: true, sourceFileName: 'a.js', inputSourceMap: first.map }, first.code);
  assert.deepStrictEqual(map.sources, ['a.ts']);
  const { found, named } = wrong({ ...map, sourcesContent: [code] }, text);
  assert.deepStrictEqual(found, []);
  assert.ok(named >= 8, String(named));
});
