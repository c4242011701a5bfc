'use strict';
// Comments: none is lost, and none makes another program.
const assert = require('node:assert');
const { test, after } = require('node:test');
const { parse } = require('@babel/parser');
const t = require('@babel/types');
const { REAL, babel, typescript, estree, read, difference } = require('./support.js');
const { printSync, end } = require('..');

after(end);

const textsOf = (comments) => comments.map(({ value }) => value.replace(/\s+/g, ' ').trim()).sort();

test('each comment of real files is in the text', () => {
  for (const file of REAL) {
    const code = read(file), more = { allowReturnOutsideFunction: true };
    for (const ast of [babel(code, [], more), estree(code, { sourceType: 'script', ...more })]) {
      const { code: text, left } = printSync(ast, { any: 'retry' }, code), again = babel(text, [], more);
      assert.deepStrictEqual(left, [], file);
      assert.deepStrictEqual(textsOf(again.comments), textsOf(ast.comments), file);
    }
  }
});

test('comments of lists alone, with and without lines', () => {
  const code = '/* a */ f(1 /* b */, /* c */ 2); // d\nfunction g(/* e */) { /* f */ }\n// h', expected = textsOf(babel(code).comments);
  const ast = estree(code), { comments } = ast;
  assert.deepStrictEqual(textsOf(babel(printSync(ast, {}, code).code).comments), expected);
  assert.strictEqual(JSON.stringify(ast.body).includes('Comments'), false, 'the AST was changed');
  assert.strictEqual(ast.comments, comments);
  assert.strictEqual(printSync(ast, {}, code).code, printSync(ast, {}, code).code);
});

test('a comment that ends a line stands where one may end', () => {
  const codes = [
    'x++', 'x.y++', 'x[y]--', '++x', 'async a => b', 'async <T>(a) => b', 'f = (a): b.c => d', 'f(a => b, (c) => d)', 'for (;;) { break }', 'a: for (;;) { break a; continue a }',
    'a as b', 'a.b as c', 'a + b.c as d as e', 'a satisfies b', 'a!', 'a.b!.c', 'f(a)!', 'type A = B', 'type A = B.C[][D]', 'type A = B.C extends D ? E : F', 'type A = keyof B[]',
    'let a: typeof b.c<d>', 'let a: A.B<C>', 'let a: import("b").C<D>', 'class A implements B.C<D> {}', 'interface A extends B.C<D> {}',
    'interface A {}', 'namespace A {}', 'namespace A.B {}', 'interface A { readonly b: C; get d(): E; f(): G; new <H>(): I; [j: K]: L }',
    'class A { async m() {} get n() {} set o(p) {} static q = 1; r; declare readonly s; private static t?: U = 1; async *#v() {} [w] = 1; static { x } }',
    'class A { constructor(private readonly a, protected b = 1, c?) {} }', 'abstract class A { abstract b(): void; abstract c }', 'x = { async m() {}, get n() {}, async *[o]() {} }',
    'function f(a): asserts a is b.c {}', 'function f(a): a is b | c {}', 'let a = 1', 'let { a, b: [c] } = d', 'let a!: B', 'export default async (a) => b',
    ...['a', 'a++', 'a.b', 'a.b++', 'a => b', 'async a => b', 'a as b', 'a satisfies b', 'a!', 'a(b)', 'a`b`', 'a?.b', 'a?.[b]', 'a?.(b)', 'a<b>', 'a + b++', 'a ? b : c', 'a = b', 'a, b', 'new a', '!a', 'function () {}', 'class {}', '[a]'].flatMap(
      (each) => [`function f() { return ${each} }`, `function* f() { yield ${each} }`, `throw ${each}`]),
    'function* f() { yield* b }', 'async () => { for await (a of b) await c }', 'if (a) b; else c', 'new A(b)', 'a?.b?.[c]', '`a${b}c`', 'import("a")', 'export { a as b } from "c"', 'import d, { e as f } from "g"',
  ];
  const all = (value, found = []) => {
    if (Array.isArray(value)) value.forEach((each) => all(each, found));
    else if (value !== null && typeof value === 'object') {
      if (typeof value.type === 'string') found.push(value);
      for (const name of t.VISITOR_KEYS[value.type] || []) all(value[name], found);
    }
    return found;
  };
  for (const code of codes) {
    const count = all(typescript(code).program).length;
    for (let at = 1; at < count; at++) {
      for (const side of ['leadingComments', 'trailingComments', 'innerComments']) {
        for (const type of ['CommentLine', 'CommentBlock']) {
          const ast = typescript(code), node = all(ast.program)[at];
          if (node.type === 'TemplateElement') continue;
          node[side] = [{ type, value: type === 'CommentLine' ? ' c' : ' c\n d ' }];
          const { code: text } = printSync(ast), again = typescript(text);
          assert.strictEqual(difference(ast.program, again.program), null, text);
          assert.strictEqual(again.comments.length, 1, `${side} of ${node.type} in ${code}: ${text}`);
        }
      }
    }
  }
});

test('a comment that ends a line stands before `using`', () => {
  const ast = parse('{ using a = b }', { plugins: ['explicitResourceManagement'] });
  ast.program.body[0].body[0].declarations[0].leadingComments = [{ type: 'CommentLine', value: ' c' }];
  assert.strictEqual(printSync(ast).code, '{\n    // c\n    using a = b;\n}');
});

test('comments that were taken off, and those of recast', () => {
  const ast = babel('/* a */ b; // c');
  t.removeComments(ast.program.body[0]);
  assert.strictEqual(printSync(ast).code, 'b;');
  ast.program.body[0].comments = [{ type: 'CommentBlock', value: ' d ', leading: true }, { type: 'CommentLine', value: ' e', trailing: true }];
  assert.strictEqual(printSync(ast).code, '/* d */ b; // e');
});

test('comments that plugins add, and nodes that were moved', () => {
  const ast = babel('f(a, b)');
  const call = ast.program.body[0].expression;
  t.addComment(call.arguments[0], 'leading', ' one ');
  t.addComment(call, 'trailing', ' two ', false);
  call.arguments.push(t.addComment(t.identifier('c'), 'inner', ' three '));
  const { code, left } = printSync(ast);
  assert.deepStrictEqual(left, []);
  assert.deepStrictEqual(textsOf(babel(code).comments), ['one', 'three', 'two']);
  assert.strictEqual(textsOf(babel(printSync(ast, { minify: true }).code).comments).length, 3);
});
