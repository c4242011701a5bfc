'use strict';
// The options of a call, by the names that Babel and esbuild have for them.
const { PrintError } = require('./errors.js');

const TARGETS = ['es3', 'es5', 'es2015', 'es2016', 'es2017', 'es2018', 'es2019', 'es2020', 'es2021', 'es2022', 'esnext'];

// What is asked of each option's value, in words where it isn't met.
const is = (type) => [(value) => typeof value === type, type === 'object' ? 'an object' : `a ${type}`];
const boolean = is('boolean'), string = is('string');
const isIndentation = (value) => (typeof value === 'string' ? /^(?: {0,10}|\t{0,10})$/.test(value) : Number.isInteger(value) && value >= 0 && value <= 10);
const OPTIONS = {
  minify: boolean,
  minified: boolean,
  compact: [(value) => typeof value === 'boolean' || value === 'auto', "a boolean or 'auto'"],
  comments: [(value) => typeof value === 'boolean' || typeof value === 'function' || value === 'some', "a boolean, 'some' or a function"],
  shouldPrintComment: is('function'),
  sourceMaps: boolean,
  sourceFileName: string,
  sourceRoot: string,
  sourcesContent: boolean,
  file: string,
  inputSourceMap: [(value) => typeof value === 'string' || typeof value === 'object', 'a map'],
  target: [(value) => TARGETS.includes(value), `one of ${TARGETS.join(', ')}`],
  asciiOnly: boolean,
  maxLine: [(value) => Number.isInteger(value) && value > 0 && value < 2 ** 32, 'a number of columns'],
  omitLastSemi: boolean,
  indent: [isIndentation, 'a number of blanks from 0 to 10, or a text of as many blanks or tabs'],
  endOfLine: [(value) => value === 'lf' || value === 'crlf', "'lf' or 'crlf'"],
  inlineScript: boolean,
  importAssertions: boolean,
  parenthesize: boolean,
  retainFunctionParens: boolean,
  any: [(value) => typeof value === 'boolean' || value === 'retry', "a boolean or 'retry'"],
};

// The nearest name of an option, for one that is misspelt.
function nearest(name) {
  const distance = (one, other) => {
    let row = [...Array(other.length + 1).keys()];
    for (let at = 1; at <= one.length; at++) {
      const next = [at];
      for (let to = 1; to <= other.length; to++) next[to] = Math.min(row[to] + 1, next[to - 1] + 1, row[to - 1] + (one[at - 1] === other[to - 1] ? 0 : 1));
      row = next;
    }
    return row[other.length];
  };
  const [best] = Object.keys(OPTIONS).map((each) => [distance(name.toLowerCase(), each.toLowerCase()), each]).sort((a, b) => a[0] - b[0]);
  return best[0] <= 3 ? `; did you mean \`${best[1]}\`?` : '';
}

// Throws where an option has another name, or a value that it can't have. One that is undefined is as one that isn't given.
function checkOptions(options) {
  if (options === null || typeof options !== 'object') throw new PrintError('bad option', 'the options are no object');
  for (const name of Object.keys(options)) {
    if (options[name] === undefined) continue;
    if (!(name in OPTIONS)) throw new PrintError('bad option', `there is no option \`${name}\`${nearest(name)}`);
    const [takes, words] = OPTIONS[name];
    if (options[name] !== null && !takes(options[name])) throw new PrintError('bad option', `\`${name}\` is ${words}`);
  }
}

// What terser keeps by the same word.
const LEGAL = /^\**!|@preserve|@copyright|@lic|@cc_on/i;

// Which comments are printed, by a function of their texts; nothing where none are.
function wanted({ comments = true, shouldPrintComment }) {
  if (shouldPrintComment) return shouldPrintComment;
  if (comments === 'some') return (text) => LEGAL.test(text);
  return typeof comments === 'function' ? comments : comments ? () => true : null;
}

const SETTINGS = { asciiOnly: 'ascii_only', omitLastSemi: 'omit_last_semi', inlineScript: 'inline_script', target: 'target', maxLine: 'max_line', indent: 'indent' };

// Whether the text is to be as short as it can be.
function isMinifying({ minify, minified, compact }, code) {
  return !!minify || !!minified || compact === true || (compact === 'auto' && typeof code === 'string' && code.length > 500000);
}

// The settings of a request. `asserts` says that the AST has attributes of imports by their old word.
function configOf(options, { asserts, isMinified }) {
  const { importAssertions } = options, config = {};
  if (isMinified) config.minify = true;
  for (const name in SETTINGS) if (options[name] !== undefined && options[name] !== null) config[SETTINGS[name]] = options[name];
  if (options.endOfLine === 'crlf') config.new_line = '\r\n';
  if (importAssertions || (asserts && importAssertions !== false)) config.emit_assert_for_import_attributes = true;
  return config;
}

module.exports = { checkOptions, isMinifying, wanted, configOf };
