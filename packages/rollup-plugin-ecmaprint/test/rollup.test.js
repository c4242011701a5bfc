'use strict';
// Rollup over lodash-es: the minified bundle does what the plain one does, and its map leads to the sources.
const assert = require('node:assert');
const { existsSync, mkdtempSync, readFileSync, rmSync, writeFileSync } = require('fs');
const { tmpdir } = require('os');
const { join } = require('path');
const { test, after } = require('node:test');
const { SourceMapConsumer } = require('source-map');
const { rollup } = require('rollup');
const ecmaprint = require('..');

const LODASH = '/usr/share/nodejs/lodash-es/lodash.js';
const folder = mkdtempSync(join(tmpdir(), 'ecmaprint-rollup-'));
after(() => rmSync(folder, { recursive: true }));

// What a function of a library makes of some arguments, in words.
function made(call, ...words) {
  try {
    const result = call(...structuredClone(words));
    return typeof result === 'function' ? 'function' : JSON.stringify(result);
  } catch (error) {
    return error.name;
  }
}

const VALUES = [[1, 2, 3], 'Hello wörld', { a: { b: [1, { c: 2 }] } }, null, 5, [[1, 2], [3, 4]], 'a-b_c d', [{ n: 1 }, { n: 2 }], /x/g];
const BY_CHANCE = /random|sample|shuffle|now|uniqueId|delay|defer|debounce|throttle|runInContext|mixin|noConflict/;

// The chunk of an entry by each of some settings.
async function bundled(input, ...settings) {
  const bundle = await rollup({ input, onwarn() {} }), chunks = [];
  for (const each of settings) chunks.push((await bundle.generate({ format: 'cjs', exports: 'named', sourcemap: true, ...each })).output[0]);
  await bundle.close();
  return chunks;
}

test('lodash-es, minified', { skip: existsSync(LODASH) ? false : 'apt-get install node-lodash' }, async () => {
  const entry = join(folder, 'entry.js');
  writeFileSync(entry, `export * from '${LODASH}'; export { default } from '${LODASH}';`);
  const [plain, ours] = await bundled(entry, { sourcemap: false }, { plugins: [ecmaprint()] });
  const [lodash, library] = [plain, ours].map(({ code }, at) => {
    writeFileSync(join(folder, `${at}.js`), code);
    return require(join(folder, `${at}.js`)).default;
  });
  assert.ok(ours.code.length < 0.4 * plain.code.length, `${ours.code.length} of ${plain.code.length}`);
  assert.match(ours.code, /@license/);
  let calls = 0;
  for (const name of Object.keys(lodash).filter((each) => typeof lodash[each] === 'function' && !BY_CHANCE.test(each))) {
    for (const one of VALUES) {
      for (const two of [undefined, 'a.b', 2]) {
        assert.strictEqual(made(library[name], one, two), made(lodash[name], one, two), name);
        calls++;
      }
    }
  }
  assert.ok(calls > 5000, String(calls));
  const consumer = new SourceMapConsumer(ours.map), sources = new Map();
  let named = 0;
  const wrong = [];
  consumer.eachMapping(({ source, name, originalLine, originalColumn }) => {
    if (name === null) return;
    named++;
    if (!sources.has(source)) sources.set(source, consumer.sourceContentFor(source).split('\n'));
    if (!sources.get(source)[originalLine - 1].slice(originalColumn).startsWith(name)) wrong.push(name);
  });
  assert.ok(named > 10000 && wrong.length < 0.01 * named, `${wrong.length} of ${named}: ${wrong.slice(0, 5)}`);
});

test('options, and the lines of the README', async () => {
  const entry = join(folder, 'src/main.js');
  require('fs').mkdirSync(join(folder, 'src'));
  writeFileSync(entry, '/* a */ export const b = 1; /*! c */\n');
  const [pretty] = await bundled(entry, { format: 'es', plugins: [ecmaprint({ minify: false, comments: true })] });
  assert.strictEqual(pretty.code.replace(/\/\/# .*/, '').trim(), '/* a */ const b = 1; /*! c */ \nexport { b };');
  const lines = /```js\n([^]*?)```/.exec(readFileSync(join(__dirname, '../README.md'), 'utf8'))[1], module = { exports: {} };
  new Function('require', 'module', lines)((name) => (name === 'rollup-plugin-ecmaprint' ? ecmaprint : require(name)), module);
  const [chunk] = await bundled(entry, { ...module.exports.output, file: undefined });
  assert.match(chunk.code, /^const b=1;\s*\/\*! c \*\/\s*export\s?\{b\};/);
});
