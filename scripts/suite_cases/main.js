'use strict';
// See scripts/dev/suites.
const { join } = require('path');
const { difference } = require('../../packages/babel-plugin-ecmaprint/same.js');
const ecmaprint = require('../../packages/ecmaprint');
const generate = require('@babel/generator').default;
const { fixtures, transformed, bareTypes } = require('./babel.js');
const { ofAcorn, ofEsbuild, ofUglify } = require('./others.js');

const ours = (options) => (ast, code) => ecmaprint.printSync(ast, options, code).code;
const PRINTERS = {
  pretty: { print: ours({}) },
  minified: { print: ours({ minify: true, comments: false }), minify: true },
  babel: { print: (ast, code) => generate(ast, {}, code).code },
};

const SUITES = {
  'babel-generator': (at) => fixtures(join(at, 'node-babel7/packages/babel-generator/test/fixtures'), { sourceType: 'module' }),
  'babel-parser': (at) => fixtures(join(at, 'node-babel7/packages/babel-parser/test/fixtures')),
  'babel-packages': (at) => transformed(join(at, 'node-babel7/packages')),
  acorn: (at) => ofAcorn(join(at, 'acorn/test')),
  'esbuild-printer': (at) => ofEsbuild(join(at, 'golang-github-evanw-esbuild/internal/js_printer/js_printer_test.go')),
  'esbuild-parser': (at) => ofEsbuild(join(at, 'golang-github-evanw-esbuild/internal/js_parser/js_parser_test.go')),
  'esbuild-typescript': (at) => ofEsbuild(join(at, 'golang-github-evanw-esbuild/internal/js_parser/ts_parser_test.go')),
  'uglify-babel': (at) => ofUglify(join(at, 'uglify-js'), { estree: false }),
  'uglify-estree': (at) => ofUglify(join(at, 'uglify-js'), { estree: true }),
  'types-babel': (at) => bareTypes(join(at, 'node-babel7/packages'), { estree: false }),
  'types-estree': (at) => bareTypes(join(at, 'node-babel7/packages'), { estree: true }),
};

const FLOW = /of Flow|`(?:typeof|variance|predicate|typeArguments)`|RestElement can't be printed with its `optional`/;
const PROPOSAL = /of a proposal|operator (?:\|>|throw)|PipelineBareFunction|`function\.sent`|its `module`|PrivateName is not a name|`argument` of AwaitExpression has no node|`using`/;

// The class of a refusal: in the table it stands by this name.
function classOf({ kind, reason }) {
  if (kind !== 'unsupported') return kind === 'not well-formed' ? `${kind}: ${reason}` : kind;
  if (FLOW.test(reason)) return 'Flow';
  return PROPOSAL.test(reason) ? 'a proposal' : `unsupported: ${reason}`;
}

const shortened = (text) => text.replace(/\(\d+:\d+\)/g, '').split('\n')[0].replace(/"[^"]*"/g, '".."').replace(/\d+ items \/ \d+/, 'other number of items').slice(0, 140).trim();

// What becomes of an AST: it is the same when it was printed and read again, or it isn't, and why.
function outcome({ code, parse }, ast, { print, minify }) {
  let text;
  try {
    text = print(ast, code);
  } catch (error) {
    return error.name === 'PrintError' ? { sort: 'refused', why: classOf(error) } : { sort: 'crash', why: shortened(error.stack) };
  }
  let again;
  try {
    again = parse(text);
  } catch (error) {
    return { sort: 'unreadable', why: shortened(error.message), text };
  }
  if (again.errors && again.errors.length > 0) return { sort: 'unreadable', why: shortened(again.errors[0].message), text };
  const found = difference(ast.program || ast, again.program || again, { minify });
  return found === null ? { sort: 'same' } : { sort: 'different', why: shortened(found), text };
}

// The AST of a case; nothing where the parser finds faults in it.
function read({ code, parse, made }) {
  try {
    const ast = made ? made() : parse(code);
    return ast.errors && ast.errors.length > 0 ? null : ast;
  } catch (error) {
    return null;
  }
}

// Runs the cases of a suite: how many were read, what became of them by each printer, and a short case of each class.
function run(cases, printers) {
  const sums = Object.fromEntries(printers.map((name) => [name, {}])), classes = new Map();
  let count = 0;
  for (const each of cases) {
    if (read(each) === null) continue;
    count++;
    for (const name of printers) {
      const { sort, why, text } = outcome(each, read(each), PRINTERS[name]);
      sums[name][sort] = (sums[name][sort] || 0) + 1;
      if (sort === 'same') continue;
      const key = `${name}: ${sort}: ${why}`, known = classes.get(key);
      if (known === undefined) classes.set(key, { count: 1, ...each, text });
      else Object.assign(known, { count: known.count + 1 }, each.code.length < known.code.length ? { ...each, text } : {});
    }
  }
  return { count, sums, classes };
}

function show(name, { count, sums, classes }, { most }) {
  const cells = ({ same = 0, refused = 0, different = 0, unreadable = 0, crash = 0 }) => [same, refused, different, unreadable, ...(crash ? [`crash ${crash}`] : [])].join(' | ');
  const row = [name, count, cells(sums.pretty), ...(sums.minified ? [cells(sums.minified)] : []), ...(sums.babel ? [sums.babel.same || 0] : ['-'])];
  console.log(`| ${row.join(' | ')} |`);
  const rows = [...classes].filter(([key]) => !key.startsWith('babel:')).sort((one, other) => other[1].count - one[1].count);
  for (const [key, { count: times, id, code, text }] of rows.slice(0, most)) {
    console.error(`${name}: ${times} ${key}\n    ${id}: ${JSON.stringify(code.slice(0, 160))}${text === undefined ? '' : `\n    printed ${JSON.stringify(text.slice(0, 160))}`}`);
  }
}

function main(words) {
  const [at, ...names] = words.filter((word) => !word.startsWith('--')), most = words.includes('--classes') ? 100 : 0;
  const printers = words.includes('--quick') ? ['pretty'] : Object.keys(PRINTERS);
  for (const name of names.length > 0 ? names : Object.keys(SUITES)) {
    const isEstree = name === 'acorn' || /estree/.test(name);
    show(name, run(SUITES[name](at), isEstree ? printers.filter((each) => each !== 'babel') : printers), { most });
  }
  ecmaprint.end();
}

module.exports = { SUITES };
if (require.main === module) main(process.argv.slice(2));
