'use strict';
// What stands first in an expression, and what last in an expression or a statement.
const { tag, held } = require('./nodes.js');

// The member in which a node has what begins it.
const LEFTMOST = {
  Cond: 'test', TaggedTpl: 'tag', Member: 'obj', TsNonNull: 'expr', TsAs: 'expr', TsSatisfies: 'expr', TsConstAssertion: 'expr', TsInstantiation: 'expr',
};

const isLetBracket = ({ obj, prop }) => tag(obj) === 'Ident' && tag(prop) === 'Computed';

// What an assignment begins with: of a pattern its bracket, for which the whole stands.
function leftmostTarget(holder, key, { Simple: target, Pat: pattern }) {
  if (pattern) return { holder, key, first: tag(pattern) === 'Object' ? '{' : '[' };
  if (target.Ident) return { first: target.Ident.id.sym, isName: true };
  return target.Member || target.OptChain ? leftmost({ target }, 'target') : { first: tag(target) };
}

function leftmostOfChain({ optional, base }) {
  const part = held(base);
  if (tag(base) === 'Call') return leftmost(part, 'callee');
  const found = leftmost(part, 'obj');
  return !optional && isLetBracket(part) ? { ...found, next: '[' } : found;
}

// The leftmost node of an expression, by what holds it: its first token, as far as a lookahead asks for it, whether that is a name, and the `[` behind.
function leftmost(holder, key) {
  const node = holder[key], kind = tag(node), part = node[kind];
  switch (kind) {
    case 'Object': return { holder, key, first: '{' };
    case 'Fn': return { holder, key, first: part.function.is_async ? 'async function' : 'function' };
    case 'Class': return { holder, key, first: part.class.decorators.length ? '@' : 'class' };
    case 'Ident': return { holder, key, first: part.sym, isName: true };
    case 'Bin': return tag(part.left) === 'PrivateName' ? { first: '#' } : leftmost(part, 'left');
    case 'Seq': return part.exprs.length ? leftmost(part.exprs, 0) : { first: '' };
    case 'Call': return part.callee.Expr ? leftmost(part.callee, 'Expr') : { first: '' };
    case 'Member': return isLetBracket(part) ? { ...leftmost(part, 'obj'), next: '[' } : leftmost(part, 'obj');
    case 'OptChain': return leftmostOfChain(part);
    case 'Update': return part.prefix ? { first: '++' } : leftmost(part, 'arg');
    case 'Assign': return leftmostTarget(holder, key, part.left);
    case 'Arrow': return { first: part.is_async ? 'async' : '(' };
    default: return kind in LEFTMOST ? leftmost(part, LEFTMOST[kind]) : { first: '' };
  }
}

// What may not begin a statement (14.5), a default export (16.2.3), the body of an arrow (15.3) and the heads of `for` (14.7).
const isLetThenBracket = ({ first, isName, next }) => first === 'let' && isName && next === '[';
const BEGINNINGS = {
  statement: (edge) => (!edge.isName && ['{', 'function', 'async function', 'class', '@'].includes(edge.first)) || isLetThenBracket(edge),
  defaultExport: ({ first, isName }) => !isName && ['function', 'async function', 'class', '@'].includes(first),
  arrowBody: ({ first, isName }) => !isName && first === '{',
  head: isLetThenBracket,
  headOfForOf: ({ first, isName }) => first === 'let' && isName,
};

// What holds the element of JSX that ends an expression, and under which key; nothing where none does. Minified, `new A()` is `new A`.
function elementAtEnd(holder, key, minified) {
  const node = holder[key], kind = tag(node), part = node[kind];
  if (kind === 'JSXElement' || kind === 'JSXFragment') return { holder, key };
  if (kind === 'Bin') return elementAtEnd(part, 'right', minified);
  if (kind === 'Unary' || kind === 'Await' || (kind === 'Update' && part.prefix)) return elementAtEnd(part, 'arg', minified);
  const isBare = kind === 'New' && (part.args === null || (minified && part.args.length === 0));
  return isBare ? elementAtEnd(part, 'callee', minified) : null;
}

const WITH_BODY = ['Labeled', 'While', 'For', 'ForIn', 'ForOf', 'With'];

// Whether a statement ends with an `if` without `else` (14.6).
function endsInIf(statement) {
  const kind = tag(statement), part = statement[kind];
  if (kind === 'If') return !part.alt || endsInIf(part.alt);
  return WITH_BODY.includes(kind) && endsInIf(part.body);
}

// Whether it ends with `do a while (b)`, behind which a semicolon is its own.
function endsInDoWhile(statement) {
  const kind = tag(statement), part = statement[kind];
  if (kind === 'DoWhile') return true;
  if (kind === 'If') return endsInDoWhile(part.alt || part.cons);
  return WITH_BODY.includes(kind) && endsInDoWhile(part.body);
}

module.exports = { leftmost, BEGINNINGS, elementAtEnd, endsInIf, endsInDoWhile };
