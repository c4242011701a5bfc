'use strict';
// The tests of acorn, esbuild and uglify-js.
const { readFileSync, readdirSync } = require('fs');
const Module = require('module');
const { join } = require('path');
const { parse } = require('@babel/parser');
const acorn = require('acorn');

function withComments(code, options) {
  const comments = [];
  return Object.assign(acorn.parse(code, { ...options, locations: true, onComment: comments }), { comments });
}

// (the sources of acorn's package aren't built)
function withBuiltAcorn(make) {
  const load = Module._load;
  Module._load = (request, ...more) => (request === '../acorn' ? acorn : load(request, ...more));
  try {
    return make();
  } finally {
    Module._load = load;
  }
}

// The programs of acorn's own tests that it reads.
function ofAcorn(folder) {
  const driver = require(join(folder, 'driver.js')), cases = [];
  withBuiltAcorn(() => readdirSync(folder).filter((each) => /^tests.*\.js$/.test(each)).forEach((name) => require(join(folder, name))));
  const read = (code, options) => {
    const ast = acorn.parse(code, options);
    const { onComment, onToken, onInsertedSemicolon, onTrailingComma, program, sourceFile, ...plain } = options;
    if (!program) cases.push({ id: 'acorn', code, parse: (text) => withComments(text, plain) });
    return ast;
  };
  driver.runTests({ parse: read }, () => {});
  return cases;
}

const GO_STRING = '("(?:[^"\\\\\\n]|\\\\.)*"|`[^`]*`)';
const ESCAPES = { a: '\\u0007', v: '\\u000b', "'": "'" };

// What a string of Go spells; nothing where it is of bytes that are no text.
function unquoted(text) {
  if (text[0] === '`') return text.slice(1, -1);
  const json = text.replace(/\\(?:x([\da-f]{2})|U([\da-f]{8})|([0-7]{3})|([av']))/gi, (_, hex, far, octal, other) => {
    if (hex) return `\\u00${hex}`;
    if (far) return JSON.stringify(String.fromCodePoint(parseInt(far, 16))).slice(1, -1);
    return octal ? `\\u00${parseInt(octal, 8).toString(16).padStart(2, '0')}` : ESCAPES[other];
  });
  try {
    return JSON.parse(json);
  } catch (error) {
    return null;
  }
}

const READ = {
  sourceType: 'unambiguous', allowReturnOutsideFunction: true, allowAwaitOutsideFunction: true, allowNewTargetOutsideFunction: true,
  allowSuperOutsideMethod: true, errorRecovery: true,
};

// The inputs and the expected outputs in a file of esbuild's tests.
function ofEsbuild(file) {
  const found = new Map();
  for (const [, name, ...texts] of readFileSync(file, 'utf8').matchAll(new RegExp(`(expect\\w+)\\(t, ${GO_STRING}, ${GO_STRING}\\)`, 'g'))) {
    const plugins = [...(/TS/.test(name) || /ts_parser/.test(file) ? ['typescript'] : []), ...(/JSX|TSX/.test(name) ? ['jsx'] : [])];
    const options = { ...READ, plugins: [...plugins, 'importAssertions', 'decorators-legacy', 'decoratorAutoAccessors'] };
    for (const code of texts.map(unquoted)) if (code !== null && !found.has(code)) found.set(code, { id: name, code, parse: (text) => parse(text, options) });
  }
  return [...found.values()];
}

// The files of uglify-js and of its tests, as an AST of Babel or of acorn.
function ofUglify(folder, { estree }) {
  const files = ['test/compress', 'lib'].flatMap((each) => readdirSync(join(folder, each)).map((name) => join(folder, each, name)));
  const babel = (text) => parse(text, { sourceType: 'script', errorRecovery: true, allowReturnOutsideFunction: true, allowAwaitOutsideFunction: true });
  const read = estree ? (text) => withComments(text, { ecmaVersion: 'latest' }) : babel;
  return files.map((id) => ({ id, code: readFileSync(id, 'utf8'), parse: read }));
}

module.exports = { ofAcorn, ofEsbuild, ofUglify };
