'use strict';
// Hangs a list of comments on the nodes of an AST by their places, as Babel's parser does: an AST of acorn or espree has the list alone.
const { TYPES } = require('./tree_of/members.js');

const startOf = (node) => (node.range ? node.range[0] : node.start);
const endOf = (node) => (node.range ? node.range[1] : node.end);

// The nodes in a node that have places, in order; of one without a place those in it.
function partsOf(node, known) {
  if (known.has(node)) return known.get(node);
  const parts = [];
  for (const { name } of TYPES.get(node.type).held) {
    for (const each of Array.isArray(node[name]) ? node[name] : [node[name]]) {
      if (!each) continue;
      if (Number.isInteger(startOf(each))) parts.push(each);
      else parts.push(...partsOf(each, known));
    }
  }
  parts.sort((one, other) => startOf(one) - startOf(other));
  known.set(node, parts);
  return parts;
}

// The innermost node round a place, and the ones in it before and behind that place.
function around(program, start, end, known) {
  for (let node = program; ;) {
    let before = null, behind = null, inside = null;
    for (const part of partsOf(node, known)) {
      if (endOf(part) <= start) before = part;
      else {
        if (startOf(part) >= end) behind = part;
        else inside = part;
        break;
      }
    }
    if (inside === null) return { node, before, behind };
    node = inside;
  }
}

// The comments of each node that has some, as its `leadingComments` and so on.
function attached(program, comments) {
  const known = new Map(), found = new Map();
  const hang = (node, name, comment) => {
    if (!found.has(node)) found.set(node, {});
    const hung = found.get(node);
    hung[name] = [...(hung[name] || []), comment];
  };
  for (const given of comments) {
    const comment = { ...given, type: /Line|HTML/.test(given.type) ? 'CommentLine' : 'CommentBlock' };
    const { node, before, behind } = around(program, startOf(given), endOf(given), known);
    if (before) hang(before, 'trailingComments', comment);
    if (behind) hang(behind, 'leadingComments', comment);
    if (!before && !behind) hang(node, 'innerComments', comment);
  }
  return found;
}

module.exports = { attached };
