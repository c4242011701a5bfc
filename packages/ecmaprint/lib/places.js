'use strict';
// Where nodes of an AST stand in the source.
const { lineStarts, countUpTo } = require('./tree_of/source.js');

let last = { code: null, lines: null };

// The line, from 1, and the column, from 0, of a node's beginning or end (`start`, `end`): as the AST says, or by the source text, of which
// some parsers tell offsets alone. Nothing where none is known.
function placeOf(node, end, code) {
  if (node.loc && node.loc[end] && node.loc[end].line !== undefined) return node.loc[end];
  const offset = Array.isArray(node.range) ? node.range[end === 'start' ? 0 : 1] : node[end];
  if (typeof code !== 'string' || !Number.isInteger(offset) || node.loc) return null;
  if (last.code !== code) last = { code, lines: lineStarts(code) };
  const line = countUpTo(last.lines, offset);
  return { line, column: offset - last.lines[line - 1] };
}

module.exports = { placeOf };
