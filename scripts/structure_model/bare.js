'use strict';
// A tree without its parentheses.
const { tag } = require('./nodes.js');

const TARGETS = ['Member', 'SuperProp', 'OptChain', 'TsAs', 'TsSatisfies', 'TsNonNull', 'TsTypeAssertion', 'TsInstantiation'];
const isOnly = (node, name) => name in node && Object.keys(node).length === 1;

// A target keeps them round what is no target by itself, and a name is a binding there.
function bareTarget(target) {
  const inner = bare(target.Paren.expr);
  if (inner.Ident) return { Ident: { id: inner.Ident, type_ann: null } };
  return TARGETS.includes(tag(inner)) ? inner : { Paren: { ...target.Paren, expr: inner } };
}

function barePattern(pat) {
  const inner = bare(pat.Expr);
  return inner.Ident ? { Ident: { id: inner.Ident, type_ann: null } } : { Expr: inner };
}

// (elsewhere under `Expr` stands a statement, a callee or a body)
const isPatternIn = (key, part) => ['left', 'value', 'arg', 'Pat'].includes(key) && isParenPattern(part);
const isParenPattern = (part) => !!part && !!part.Expr && !!part.Expr.Paren;

function barePart(key, part) {
  if (isPatternIn(key, part)) return barePattern(part);
  if (key === 'elems') return part.map((each) => (isParenPattern(each) ? barePattern(each) : bare(each)));
  return bare(part);
}

function bare(node) {
  if (Array.isArray(node)) return node.map(bare);
  if (node === null || typeof node !== 'object') return node;
  if (isOnly(node, 'Paren') && node.Paren.expr) return bare(node.Paren.expr);
  if (isOnly(node, 'Simple') && node.Simple.Paren) return { Simple: bareTarget(node.Simple) };
  return Object.fromEntries(Object.entries(node).map(([key, part]) => [key, barePart(key, part)]));
}

module.exports = { bare };
