'use strict';
// The functions, and each of their options.
const assert = require('node:assert');
const { test, after } = require('node:test');
const t = require('@babel/types');
const { babel, typescript, estree, assertReadAs, read, REAL } = require('./support.js');
const { print, printSync, generate, Printer, PrintError, end } = require('..');

after(end);
const text = (ast, options, code) => printSync(ast, options, code).code;

test('an AST of Babel, one of ESTree, and a file give the same text', async () => {
  const code = 'const {a, b: [c = 1]} = x ?? y;\nexport default class extends A { static #p = 1; get q() { return a?.b.c } }\n';
  const expected = 'const { a, b: [c = 1] } = x ?? y;\nexport default class extends A {\n    static #p = 1;\n    get q() {\n        return a?.b.c;\n    }\n}';
  for (const ast of [babel(code), babel(code).program, estree(code)]) {
    assert.strictEqual(text(ast), expected);
    assert.strictEqual((await print(ast)).code, expected);
  }
});

test('real files are read as their ASTs, pretty and minified', () => {
  for (const file of REAL) {
    const ast = babel(read(file));
    for (const minify of [false, true]) assertReadAs(text(ast, { minify, any: 'retry' }), ast, { minify, allowReturnOutsideFunction: true });
  }
});

test('a node alone', () => {
  const expressions = { 'a + b': 'a + b', '{}': '{}', 'function () {}': 'function() {}', 'x => x': '(x)=>x', 'a, b': 'a, b', 'class {}': 'class {\n}', '({}).a': '{}.a' };
  for (const [code, expected] of Object.entries(expressions)) assert.strictEqual(text(babel(`(${code})`).program.body[0].expression), expected);
  assert.strictEqual(text(babel('if (a) b').program.body[0]), 'if (a) b;');
  assert.strictEqual(text(babel('var {a, b: [c]} = x').program.body[0].declarations[0].id), '{ a, b: [c] }');
  assert.strictEqual(text(babel('var [a, b] = x').program.body[0].declarations[0].id, { minify: true }), '[a,b]');
  assert.strictEqual(text(typescript('let x: A | (() => B)[]').program.body[0].declarations[0].id.typeAnnotation.typeAnnotation), 'A | (() => B)[]'.replace(' => ', ' => '));
  assert.throws(() => printSync(babel('class A { m() {} }').program.body[0].body.body[0]), { kind: 'unsupported', reason: /isn't printed alone/ });
});

test('minify, minified and compact', () => {
  const ast = babel('a = [1, 2];');
  for (const options of [{ minify: true }, { minified: true }, { compact: true }]) assert.strictEqual(text(ast, options), 'a=[1,2];');
  assert.strictEqual(text(ast, { compact: 'auto' }, 'a = [1, 2];'), 'a = [1, 2];');
  assert.strictEqual(text(ast, { compact: 'auto' }, ' '.repeat(500001)), 'a=[1,2];');
});

test('comments and shouldPrintComment', () => {
  const ast = babel('/*! keep */ a; // b\n/* @license c */ d');
  assert.strictEqual(text(ast, { comments: false }), 'a;\nd;');
  assert.strictEqual(text(ast, { comments: 'some' }), '/*! keep */ a;\n/* @license c */ d;');
  assert.strictEqual(text(ast, { comments: (words) => words === ' b' }), 'a; // b\nd;');
  assert.strictEqual(text(ast, { shouldPrintComment: (words) => words === ' b' }), 'a; // b\nd;');
});

test('settings of the text', () => {

  assert.doesNotMatch(text(babel('a = "é"; é = 1'), { asciiOnly: true }), /[^\x00-\x7f]/);
  const long = babel(`f(${Array.from({ length: 60 }, (_, at) => `a${at}`).join(', ')})`);
  assert.ok(Math.max(...text(long, { minify: true, maxLine: 40 }).split('\n').map((line) => line.length)) <= 40);
  assert.doesNotMatch(text(babel('a = "</script>"'), { inlineScript: true, minify: true }), /<\/script/);
  assert.strictEqual(text(babel('a; b'), { minify: true, omitLastSemi: true }), 'a;b');
  assert.match(text(babel('a = "\u{1F600}"'), { target: 'es5', asciiOnly: true }), /\\uD83D\\uDE00/i);
});

test('indent and endOfLine', () => {
  const code = 'class A {\n  // a\n  b() { /* c\n d */ e(`f\n${g}`); }\n}', ast = babel(code);
  const lines = (unit, end) => ['class A {', `${unit}// a`, `${unit}b() {`, `${unit}${unit}/* c`, ` d */ e(\`f\n\${g}\`);`, `${unit}}`, '}'].join(end);
  assert.strictEqual(text(ast), lines('    ', '\n'));
  for (const [indent, unit] of [[0, ''], [2, '  '], ['\t', '\t'], ['   ', '   ']]) assert.strictEqual(text(ast, { indent }), lines(unit, '\n'));
  assert.strictEqual(text(ast, { indent: '\t', endOfLine: 'crlf' }), lines('\t', '\r\n'));
  assert.strictEqual(text(babel('// a\n({ b: 1 })').program.body[0].expression, { endOfLine: 'crlf' }), '{\r\n    b: 1\r\n}');
  for (const indent of [11, -1, 1.5, ' \t', 'x', true]) assert.throws(() => printSync(ast, { indent }), { kind: 'bad option', reason: /`indent` is a number of blanks/ });
  assert.throws(() => printSync(ast, { endOfLine: '\r' }), { kind: 'bad option' });
});

test('attributes of imports have the word that the AST has, or the one that is asked for', () => {
  const ast = babel('import a from "a" assert { type: "json" };', ['importAssertions']);
  assert.match(text(ast), / assert \{/);
  assert.match(text(ast, { importAssertions: false }), / with \{/);
});

test('parentheses that the text needs', () => {
  const sum = t.binaryExpression('+', t.identifier('a'), t.identifier('b')), product = t.binaryExpression('*', sum, t.identifier('c'));
  assert.strictEqual(text(product), '(a + b) * c');
  assert.throws(() => text(product, { parenthesize: false }) && assert.fail('printed'), (error) => error instanceof PrintError || error.code === 'ERR_ASSERTION');
  assert.strictEqual(text(babel('a((function () {}))'), { retainFunctionParens: true, minify: true }), 'a((function(){}));');
});

test('what ECMA-262 has no program for is printed if it is asked for', () => {
  const ast = babel('return 1', [], { allowReturnOutsideFunction: true });
  assert.throws(() => printSync(ast), { kind: 'not a derivation', code: 'ECMAPRINT_NOT_A_DERIVATION' });
  assert.deepStrictEqual({ ...printSync(ast, { any: 'retry' }) }, { code: 'return 1;', map: null, rawMappings: null, left: [], isDerivation: false });
  assert.strictEqual(printSync(babel('a'), { any: 'retry' }).isDerivation, true);
});

test('an option of another name or value is an error', async () => {
  assert.throws(() => printSync(babel('a'), { minfy: true }), { kind: 'bad option', reason: /`minfy`; did you mean `minify`\?/ });
  assert.throws(() => printSync(babel('a'), { target: 'es6' }), { kind: 'bad option', reason: /es2015/ });
  assert.throws(() => printSync(babel('a'), { maxLine: -1 }), { kind: 'bad option' });
  await assert.rejects(print(babel('a'), { minify: 'yes' }), { kind: 'bad option' });
  assert.strictEqual(text(babel('a'), { minify: undefined, target: null }), 'a;');
});

test('generate has the shape of @babel/generator', () => {
  const code = 'a;\nb', ast = babel(code), printed = generate(ast, { sourceMaps: true, sourceFileName: 'x.js', retainLines: true }, code);
  const theirs = require('@babel/generator').default(ast, { sourceMaps: true, sourceFileName: 'x.js' }, code);
  assert.strictEqual(printed.code, theirs.code);
  assert.deepStrictEqual(Object.keys(theirs).filter((name) => !(name in printed) && name[0] !== '_'), []);
  const places = (raw) => raw.filter(({ name }) => name).map(({ generated, original, source, name }) => [{ ...generated }, { ...original }, source, name]);
  assert.deepStrictEqual(places(printed.rawMappings), places(theirs.rawMappings));
  assert.strictEqual(generate(t.identifier('a')).code, 'a');
  assert.strictEqual(generate(babel('/* a */ b'), { comments: false }).code, 'b;');
});

test('a printer of its own', async () => {
  const printer = new Printer();
  assert.strictEqual(printer.printSync(babel('a')).code, 'a;');
  const many = Array.from({ length: 200 }, (_, at) => printer.print(babel(`a${at}`)));
  assert.deepStrictEqual((await Promise.all(many)).map(({ code }) => code), many.map((_, at) => `a${at};`));
  printer.end();
  assert.strictEqual(printer.printSync(babel('b')).code, 'b;');
  printer.end();
});
