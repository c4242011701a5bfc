#!/usr/bin/env node
'use strict';
// A code mod: each use of a name becomes an expression, and `ecmaprint` puts in the parentheses that the text needs then. The text goes to
// standard output, with the comments of the file. Debian packages: nodejs, node-babel7.
//
// usage: node examples/replace-name.js PROGRAM NAME EXPRESSION FILE
//
// With the name `x` and the expression `a + b` the text of `x * c` is `(a + b) * c`, that of `f(x)` is `f(a + b)`, and that of `{ x }` is
// `{ x: a + b }`. A name that is declared or assigned to stays.
const { spawnSync } = require('child_process');
const { readFileSync } = require('fs');
const { byName } = require('../packages/ecmaprint/lib/tree_of/files.js');
const { treeOf } = require('../packages/ecmaprint/lib/tree_of/tree.js');

const [program, name, expression, file] = process.argv.slice(2);

// What stands in an identifier's form, and is no use of a variable: names of elements, of what is imported and exported, and of types.
const OTHERS = ['name', 'orig', 'imported', 'exported', 'type_name'];

function replaced(node, by, key) {
  if (node === null || typeof node !== 'object') return node;
  if (Array.isArray(node)) return node.map((each) => replaced(each, by, key));
  const { Ident: ident, Shorthand: shorthand } = node;
  if (ident && ident.sym === name && 'optional' in ident && !OTHERS.includes(key)) return by;
  if (shorthand && shorthand.sym === name) return { KeyValue: { key: { Ident: { span: shorthand.span, sym: name } }, value: by } };
  return Object.fromEntries(Object.entries(node).map(([member, part]) => [member, replaced(part, by, member)]));
}

const { tree, comments } = treeOf(readFileSync(file, 'utf8'), byName(file));
const [statement] = treeOf(`(${expression})`, { nowhere: true }).tree.Script.body;
const request = { tree: replaced(tree, statement.Expr.expr.Paren.expr), comments, parenthesize: true };
const { stdout } = spawnSync(program, [], { input: JSON.stringify(request), encoding: 'utf8', maxBuffer: Infinity });
const { code, error } = JSON.parse(stdout);
if (error) {
  console.error(`${file}: ${JSON.stringify(error)}`);
  process.exitCode = 1;
} else process.stdout.write(code);
