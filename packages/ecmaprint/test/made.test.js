'use strict';
// ASTs that tools made or changed: numbers, strings, directives, types, names.
const assert = require('node:assert');
const { test, after } = require('node:test');
const t = require('@babel/types');
const { babel, typescript, estree, assertReadAs, difference } = require('./support.js');
const { printSync, end } = require('..');

after(end);
const text = (ast, options) => printSync(ast, options).code;
const changed = (code, change, plugins) => {
  const ast = babel(code, plugins);
  change(ast.program.body[0].expression || ast.program.body[0]);
  return ast;
};

test('numbers that no literal spells', () => {
  const number = (value) => Object.assign(t.numericLiteral(1), { value });
  assert.strictEqual(text(number(-1)), '-1');
  assert.strictEqual(text(number(-0)), '-0');
  assert.strictEqual(text(number(NaN)), 'NaN');
  assert.strictEqual(text(Object.assign(t.bigIntLiteral('1'), { value: '-1' })), '-1n');
  assert.strictEqual(text(t.binaryExpression('**', number(-1), number(2))), '(-1) ** 2');
  assert.strictEqual(text(t.binaryExpression('-', t.identifier('a'), number(-1))), 'a - -1');
  assert.strictEqual(text(t.memberExpression(number(-1), t.identifier('a'))), '(-1).a');
  for (const value of [Infinity, 1e21, 0.1, 5e-324]) assert.strictEqual((0, eval)(text(number(value))), value);
  assert.strictEqual((0, eval)(text(number(-Infinity))), -Infinity);
  assert.throws(() => text(t.objectExpression([t.objectProperty(number(-1), number(1))])), { kind: 'unsupported' });
});

test('a value counts where its spelling was left behind', () => {
  assert.strictEqual(text(changed('a = "old"', (node) => { node.right.value = 'new'; })), 'a = "new";');
  assert.strictEqual(text(changed('a = 0x10', (node) => { node.right.value = 5; })), 'a = 5;');
  assert.strictEqual(text(changed("a = '\\x61'", () => {})), "a = '\\x61';");
  const other = estree('a = "old"');
  other.body[0].expression.right.value = 'new';
  assert.strictEqual(text(other), 'a = "new";');
});

test('strings that spell a surrogate', () => {
  for (const code of ["a = '\\\\ud800'", "a = '\\\\uD800\\\\uDFFF'.length", "({'\\\\ud800': 1})", 'a = `\\\\ud800`', "a = '\\ud800'"]) {
    for (const [ast, read] of [[babel(code), babel], [estree(code), babel]]) {
      const printed = text(ast), value = (source) => JSON.stringify((0, eval)(`(() => { let a; return ${source.trim().replace(/;$/, '')} })()`));
      assert.strictEqual(value(printed), value(code), printed);
      assert.ok(read(printed));
    }
  }
});

test('a directive that spells a surrogate is refused', () => {
  assert.throws(() => text(babel("'use \\\\ud800'")), { kind: 'not well-formed' });
});

test('a string that is no directive', () => {
  const ast = t.program([t.expressionStatement(t.stringLiteral('use strict')), t.withStatement(t.identifier('a'), t.blockStatement([]))], []);
  assert.match(text(ast), /^\("use strict"\);/);
  assert.strictEqual(text(babel('"use strict"; a')), '"use strict";\na;');
  assert.strictEqual(text(estree('"use strict"; a', { sourceType: 'script' })), '"use strict";\na;');
  assert.match(text(estree('("use strict"); a', { sourceType: 'script' })), /^\("use strict"\);/);
  const inner = estree('function f() { ("use strict"); "a".b }', { sourceType: 'script' });
  assert.match(text(inner), /\("use strict"\);/);
});

test('what plugins leave on nodes whose types they change', () => {
  const method = babel('class A { static a(b) { return b } }').program.body[0].body.body[0];
  assert.strictEqual(text(t.callExpression(t.toExpression(method), []), { minify: true }), 'function(b){return b}()');
  const link = babel('a?.b').program.body[0].expression;
  link.type = 'MemberExpression';
  assert.strictEqual(text(link), 'a.b');
});

test('a name that was changed beside the mark of a shorthand', () => {
  assert.strictEqual(text(changed('({a})', (node) => { node.properties[0].value = t.identifier('b'); }), { minify: true }), '({a:b});');
  assert.strictEqual(text(changed('({a} = b)', (node) => { node.left.properties[0].value = t.identifier('c'); }), { minify: true }), '({a:c}=b);');
  assert.strictEqual(text(changed('({a = 1} = b)', (node) => { node.left.properties[0].key = t.identifier('c'); }), { minify: true }), '({c:a=1}=b);');
});

const TYPES = [
  '(A | B)[]', '(A & B)[]', '(keyof A)[]', '(infer U)[]', '(() => A)[]', '(new () => A)[]', '(typeof a)[]', '(A extends B ? C : D)[]', '(A | B)["x"]',
  'keyof (A | B)', 'keyof (() => A)', '(() => A) | B', 'A | (() => B)', '(A | B) & C', 'A & (B | C)', 'A extends (B extends C ? D : E) ? F : G',
  '(A extends B ? C : D) extends E ? F : G', '(() => A) extends B ? C : D', 'A extends (() => infer R extends X) ? R : never', '[...(A | B)]',
  '[(A | B)?]', '(unique symbol)[]', '(readonly A[])[]', 'readonly (A[])[]', '() => (A | B)', 'A extends (infer U extends B) ? U : C',
  '(abstract new () => A)[]', '(typeof import("a"))[]', '(`a${A}`)[]', '(-1)[]', '(infer U extends A)[]',
];

// Takes the parentheses of types away.
function stripped(value) {
  if (Array.isArray(value)) return value.map(stripped);
  if (value === null || typeof value !== 'object') return value;
  if (value.type === 'TSParenthesizedType') return stripped(value.typeAnnotation);
  for (const name of Object.keys(value)) if (name !== 'loc' && name !== 'extra') value[name] = stripped(value[name]);
  return value;
}

test('types that need parentheses get them', () => {
  let count = 0;
  for (const type of TYPES) {
    for (const code of [`type X = ${type};`, `type X<T> = T extends ${type} ? 1 : 2;`]) {
      let ast;
      try {
        ast = typescript(code);
      } catch (error) {
        continue; // (`infer` has its place in conditional types alone)
      }
      stripped(ast.program);
      assertReadAs(text(ast), ast, { plugins: ['typescript'] });
      count++;
    }
  }
  assert.ok(count > 50, String(count));
});

test('expressions in namespaces, decorators and assertions', () => {
  const cases = [
    'namespace x { y = (a + b) * c; z = (a, b); new (f())(); (a?.b).c; (() => 1)(); -(-1) }', 'class C { @(a[b]) x; @(f().g) y; @a.b(c) z; @(a + b) w }',
    '(a as any) = null; (<any>a).b = 1; (a satisfies B).c', 'for ((async) of x); for ((let) in y);', 'a!.b; (a?.b)!.c; a?.b!.c', '(a ?? b) || c; (a && b) ?? c',
  ];
  for (const code of cases) {
    const ast = babel(code, ['typescript', 'decorators-legacy'], { sourceType: 'script' });
    assertReadAs(text(ast), ast, { plugins: ['typescript', 'decorators-legacy'] });
  }
});

test('comparisons that TypeScript would read as a call', () => {
  for (const code of ['(a < b) > (c, d)', '(a < b) > `c`', '(a < b) > (c ? d : e)']) {
    const ast = typescript(code);
    assertReadAs(text(ast), ast, { plugins: ['typescript'] });
  }
});

test('nodes of one AST in another place', () => {
  const ast = babel('f(a ? b : c, (d, e), x => x, { y: 1 }, function () {}, async () => await 1, -1 ** 2 || 1)'.replace('-1 ** 2', '(-1) ** 2'));
  const parts = ast.program.body[0].expression.arguments;
  for (const one of parts) {
    for (const make of [
      (node) => t.memberExpression(node, t.identifier('p')), (node) => t.binaryExpression('**', node, t.identifier('p')), (node) => t.callExpression(node, []),
      (node) => t.newExpression(node, []), (node) => t.unaryExpression('typeof', node), (node) => t.conditionalExpression(node, node, node),
      (node) => t.arrowFunctionExpression([], node), (node) => t.taggedTemplateExpression(node, t.templateLiteral([t.templateElement({ raw: '' }, true)], [])),
    ]) {
      const program = t.file(t.program([t.expressionStatement(make(one))], [], 'script'));
      const again = babel(text(program));
      assert.strictEqual(difference(program.program, again.program), null, text(program));
    }
  }
});
