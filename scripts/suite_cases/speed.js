'use strict';
// How long printing takes, beside @babel/generator; and how large requests are beside their sources.
const { existsSync, readFileSync } = require('fs');
const { join } = require('path');
const { parse } = require('@babel/parser');
const generate = require('@babel/generator').default;
const { Printer } = require('../../packages/ecmaprint');
const { Call } = require('../../packages/ecmaprint/lib/request.js');

const NAMES = [
  'acorn/dist/acorn.js', 'lodash/lodash.js', 'react/cjs/react.development.js', 'source-map/lib/source-map-consumer.js', 'semver/classes/range.js',
  '@babel/parser/lib/index.js', '@babel/types/lib/validators/generated/index.js', '@babel/generator/lib/printer.js', '@babel/traverse/lib/path/index.js',
  'commander/lib/command.js', 'rollup/dist/shared/rollup.js', 'glob/glob.js', 'micromatch/index.js', 'picomatch/lib/parse.js', 'regjsparser/parser.js',
  'jsesc/jsesc.js', 'resolve/lib/async.js', 'minimatch/minimatch.js', 'readable-stream/lib/_stream_readable.js', 'debug/src/common.js',
];
const FILES = NAMES.map((name) => join('/usr/share/nodejs', name)).filter(existsSync).map((file) => {
  const code = readFileSync(file, 'utf8');
  return { code, ast: parse(code, { sourceType: 'unambiguous' }) };
});

const TIMES = 8;

// How long a call takes, in ms.
function timeOf(call) {
  const began = process.hrtime.bigint();
  call();
  return Number(process.hrtime.bigint() - began) / 1e6;
}

// The least times that all files take by each of some functions, which take turns: so that all meet the same load.
function least(functions) {
  const best = functions.map(() => Infinity);
  for (let round = 0; round < TIMES; round++) {
    functions.forEach((print, at) => {
      best[at] = Math.min(best[at], timeOf(() => FILES.forEach(({ ast, code }) => print(ast, code))));
    });
  }
  return best;
}

const KINDS = {
  pretty: {}, 'pretty, with a map': { sourceMaps: true, sourceFileName: 'a.js' }, 'without comments': { comments: false }, minified: { minified: true, comments: false },
};

function speed() {
  const size = FILES.reduce((sum, { code }) => sum + code.length, 0), printer = new Printer();
  console.log(`${FILES.length} files, ${(size / 1e6).toFixed(2)} MB\n\n| Text | @babel/generator | ecmaprint | ratio | making requests | request / source |\n|---|---|---|---|---|---|`);
  for (const [name, options] of Object.entries(KINDS)) {
    const read = (printed) => [printed.code, printed.map], asked = (ast, code) => {
      const { line: { length }, source } = new Call(ast, options, code, printer);
      source.release();
      return length;
    };
    const [theirs, ours, making] = least([
      (ast, code) => read(generate(ast, options, code)), (ast, code) => read(printer.printSync(ast, options, code)), asked,
    ]);
    const bytes = FILES.reduce((sum, { ast, code }) => sum + asked(ast, code), 0);
    console.log(`| ${name} | ${theirs.toFixed(0)} ms | ${ours.toFixed(0)} ms | ${(ours / theirs).toFixed(2)} | ${making.toFixed(0)} ms | ${(bytes / size).toFixed(2)} |`);
  }
  printer.end();
}

module.exports = { speed };
