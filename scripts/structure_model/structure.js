'use strict';
// Whether the text of a tree means this tree: the table of docs/LEVELS.md as a program.
const { Walk } = require('./walk.js');
const { bare } = require('./bare.js');

// The faults of a program that is no derivation of ECMA-262's syntactic grammar, each of a kind: `level`, `in`, `lookahead` and `else`, which
// parentheses cure (or a block, before `else`), `grammar`, which nothing cures, and `scope`, for which the table has no productions. A `return`
// may stand anywhere, as parsers can be told, but for `returnsAnywhere: false`.
function check(program, options = {}) {
  const walk = new Walk(options);
  walk.returnsAnywhere = options.returnsAnywhere !== false;
  walk.program(program);
  return walk.faults;
}

// The program with parentheses where its own grammar asks for them, and nowhere else.
function parenthesize(program, options = {}) {
  const walk = new Walk({ ...options, mends: true });
  walk.returnsAnywhere = true;
  return walk.program(JSON.parse(JSON.stringify(program)));
}

module.exports = { check, parenthesize, bare };
