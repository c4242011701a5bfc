'use strict';
// The trees that the builder makes are of the tree's types: each member that a type has is there, and no other.
const assert = require('node:assert');
const { existsSync, readFileSync, readdirSync } = require('fs');
const { join } = require('path');
const { test } = require('node:test');
const { REAL, TEXTS, babel, estree, read } = require('./support.js');
const { treeOf } = require('../lib/tree_of/tree.js');
const { treeOfAst } = require('../lib/tree_of/ast_tree.js');

const CRATES = ['tree', 'common'].map((name) => join(__dirname, `../../../crates/swc_ecma_codegen_${name}/src`));

// The structs and the enums of the sources: their members with types.
function declared() {
  const types = new Map();
  for (const folder of CRATES) {
    for (const file of readdirSync(folder).filter((name) => name.endsWith('.rt'))) {
      const text = readFileSync(join(folder, file), 'utf8').replace(/^ *(?:\/\/|#\[).*\n/gm, '');
      for (const [, kind, name, body] of text.matchAll(/^pub (struct|enum) (\w+)(?:<N = AnyNode>)? \{\n([^]*?)\n\}/gm)) {
        const part = kind === 'struct' ? /^ {4}pub (\w+?)_?: (.*),$/gm : /^ {4}(\w+)(?:\((.*)\))?,$/gm;
        types.set(name, { kind, parts: new Map([...body.matchAll(part)].map(([, each, type]) => [each, type])) });
      }
    }
  }
  return types;
}

// Asserts that a value is one of a type.
function assertIs(value, type, types, at) {
  const [, outer, of] = /^(\w+)<(.*)>$/.exec(type) || [null, type, null];
  if (outer === 'Option') return value === null || assertIs(value, of, types, at);
  if (outer === 'Box') return assertIs(value, of, types, at);
  if (outer === 'Vec') {
    assert.ok(Array.isArray(value), at);
    return value.forEach((each) => assertIs(each, of, types, at));
  }
  const name = types.has(outer) ? outer : outer.replace(/Box$/, '');
  if (!types.has(name)) return assert.ok(/^(?:boolean|string|number)$/.test(typeof value), `${at}: ${type}`);
  const { kind, parts } = types.get(name);
  if (kind === 'struct' && parts.size === 0) return undefined; // (a decimal number: its members are its own)
  if (kind === 'struct') {
    assert.deepStrictEqual(Object.keys(value).sort(), [...parts.keys()].sort(), `${at}: ${name}`);
    return parts.forEach((each, member) => assertIs(value[member], each, types, `${at}.${member}`));
  }
  const variant = typeof value === 'string' ? value : Object.keys(value)[0];
  assert.ok(parts.has(variant) && (typeof value === 'string' || Object.keys(value).length === 1), `${at}: ${variant} of ${name}`);
  return typeof value === 'string' ? assert.strictEqual(parts.get(variant), undefined, at) : assertIs(value[variant], parts.get(variant), types, `${at}.${variant}`);
}

test('trees have the members of their types', { skip: existsSync(CRATES[0]) ? false : 'no sources of the tree' }, () => {
  const types = declared();
  assert.ok(types.size > 200, String(types.size));
  const check = (tree) => assertIs(tree, 'Program<N>', types, 'Program');
  for (const [text, plugins] of TEXTS) {
    const isPlain = !plugins.includes('decorators-legacy');
    if (isPlain) check(treeOf(text, { typescript: true, jsx: plugins.includes('jsx'), recovers: true, flat: true }).tree);
    check(treeOfAst(babel(text, ['typescript', ...plugins, 'importAssertions'], { errorRecovery: true }), { flat: true }).tree);
  }
  for (const file of REAL.slice(1, 4)) {
    check(treeOf(read(file), { flat: true }).tree);
    check(treeOfAst(estree(read(file), { sourceType: 'script', allowReturnOutsideFunction: true }), { flat: true }).tree);
  }
});
