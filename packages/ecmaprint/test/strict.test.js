'use strict';
// The builder reads each member that it takes: nothing is lost in silence.
const assert = require('node:assert');
const { execFileSync } = require('child_process');
const { join } = require('path');
const { test } = require('node:test');
const { babel, REAL, TEXTS, read } = require('./support.js');
const { AstTree } = require('../lib/tree_of/ast_tree.js');
const { check, isNone } = require('../lib/tree_of/check.js');
const { COMMENTS, SILENT, TYPES } = require('../lib/tree_of/members.js');

// What follows of other members, and is not asked.
const FOLLOWING = new Set(['ObjectMethod.method', 'UnaryExpression.prefix', 'TemplateElement.tail', 'ExportNamedDeclaration.exportKind', 'ExportDefaultDeclaration.exportKind']);

// An object that notes which members of its nodes are read.
function tracked(value, reads, known) {
  if (value === null || typeof value !== 'object' || value instanceof RegExp) return value;
  if (!known.has(value)) {
    known.set(value, new Proxy(value, {
      get(target, name) {
        if (!reads.has(target)) reads.set(target, new Set());
        reads.get(target).add(name);
        return name === 'loc' || typeof name === 'symbol' ? target[name] : tracked(target[name], reads, known);
      },
    }));
  }
  return known.get(value);
}

function walk(value, visit) {
  if (value === null || typeof value !== 'object') return;
  if (typeof value.type === 'string') visit(value);
  for (const name of Object.keys(value)) if (!SILENT.has(name) && !COMMENTS.includes(name) && name[0] !== '_') walk(value[name], visit);
}

test('each member of an AST that is taken is read', () => {
  const seen = new Set(), take = (program) => {
    const reads = new Map();
    check(program);
    new AstTree({}).program({ program: tracked(program, reads, new Map()) });
    walk(program, (node) => {
      const wasRead = reads.get(node) || new Set();
      seen.add(node.type);
      for (const name of Object.keys(node)) {
        if (isNone(node[name]) || SILENT.has(name) || COMMENTS.includes(name) || name[0] === '_' || FOLLOWING.has(`${node.type}.${name}`)) continue;
        assert.ok(wasRead.has(name), `${node.type}.${name} is not read`);
      }
    });
  };
  for (const [text, plugins] of TEXTS) take(babel(text, ['typescript', ...plugins, 'importAssertions'], { errorRecovery: true }).program);
  for (const file of REAL) take(babel(read(file), [], { allowReturnOutsideFunction: true }).program);
  const others = [...TYPES.keys()].filter((type) => !seen.has(type) && !/Keyword$|^File$/.test(type));
  assert.deepStrictEqual(others, ['ParenthesizedExpression', 'ImportAttribute', 'ExportDefaultSpecifier', 'TSParenthesizedType', 'TypeParameterDeclaration', 'TypeParameter'].filter((type) => !seen.has(type)), 'types that no text here has');
});

test('a member that no type has is refused, with its name, and one that says nothing is not', () => {
  for (const type of ['Identifier', 'CallExpression', 'ClassMethod', 'TSTypeReference']) assert.ok(TYPES.has(type));
  const ast = babel('a(b)').program;
  Object.assign(ast.body[0].expression, { _mark: 1, parent: ast, extra: { a: 1 }, nothing: null, none: [], no: false });
  check(ast);
  ast.body[0].expression.other = 'x';
  assert.throws(() => check(ast), /CallExpression can't be printed with its `other`/);
});

test('the table of links is that of the sources', () => {
  execFileSync(join(__dirname, '../../../scripts/dev/make-links'), ['--check']);
});
