'use strict';
// webpack over lodash-es, where webpack is installed (or unpacked, and found by NODE_PATH).
const assert = require('node:assert');
const { existsSync, mkdtempSync, readFileSync, rmSync, writeFileSync } = require('fs');
const { tmpdir } = require('os');
const { join } = require('path');
const { test, after } = require('node:test');
const { SourceMapConsumer } = require('source-map');

const LODASH = '/usr/share/nodejs/lodash-es/lodash.js';

function found(name) {
  try {
    return require(name);
  } catch (error) {
    return null;
  }
}

const webpack = found('webpack'), Ecmaprint = require('..');
const skip = webpack === null ? 'no webpack here: apt-get install webpack, or its package unpacked and named by NODE_PATH' : existsSync(LODASH) ? false : 'no lodash-es';
const folder = mkdtempSync(join(tmpdir(), 'ecmaprint-webpack-'));
after(() => rmSync(folder, { recursive: true }));

function build(name, minimizer) {
  return new Promise((resolve, reject) => {
    const compiler = webpack({
      mode: 'production', context: folder, entry: './entry.js', devtool: 'source-map', output: { path: folder, filename: name, library: { type: 'commonjs2' } },
      optimization: { minimize: minimizer !== null, minimizer: minimizer === null ? [] : [minimizer] },
    });
    compiler.run((error, stats) => {
      if (error) return reject(error);
      const { errors, warnings } = stats.toJson({ all: false, errors: true, warnings: true });
      return compiler.close(() => resolve({ errors, warnings: warnings.filter(({ message }) => /ecmaprint|comments/.test(message)) }));
    });
  });
}

test('lodash-es, minified, with its map', { skip, timeout: 600000 }, async () => {
  writeFileSync(join(folder, 'entry.js'), `export { default } from '${LODASH}';`);
  await build('plain.js', null);
  assert.deepStrictEqual(await build('ours.js', new Ecmaprint()), { errors: [], warnings: [] });
  const [plain, ours] = ['plain.js', 'ours.js'].map((name) => readFileSync(join(folder, name), 'utf8'));
  assert.ok(ours.length < 0.6 * plain.length, `${ours.length} of ${plain.length}`);
  const lodash = require(join(folder, 'ours.js')).default;
  assert.deepStrictEqual(lodash.chunk(lodash.map([3, 1, 2], (each) => each * 2).sort(), 2), [[2, 4], [6]]);
  const consumer = new SourceMapConsumer(JSON.parse(readFileSync(join(folder, 'ours.js.map'), 'utf8')));
  let named = 0, right = 0;
  consumer.eachMapping(({ source, name, originalLine, originalColumn }) => {
    if (name === null) return;
    named++;
    if ((consumer.sourceContentFor(source, true) || '').split('\n')[originalLine - 1].slice(originalColumn).startsWith(name)) right++;
  });
  assert.ok(named > 1000 && right === named, `${right} of ${named}`);
});

test('what is no program is an error of the compilation', { skip }, async () => {
  writeFileSync(join(folder, 'entry.js'), 'export const a = 1;');
  const { errors } = await build('bad.js', new Ecmaprint({ parser: { parse: () => ({ type: 'Program', body: [{ type: 'Nix' }] }) } }));
  assert.match(errors[0].message, /bad\.js: unsupported: Nix is no type/);
});
