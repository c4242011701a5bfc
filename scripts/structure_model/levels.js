'use strict';
// Levels of expressions, and which of them a goal takes: docs/LEVELS.md, ECMA-262 13.1 to 13.16.
const { tag, isNegative } = require('./nodes.js');

const LEVELS = [
  'Sequence', 'Assignment', 'Conditional', 'Coalesce', 'Or', 'And', 'BitOr', 'BitXor', 'BitAnd', 'Equality', 'Relational', 'Shift', 'Additive',
  'Multiplicative', 'Exponentiation', 'Unary', 'Update', 'Optional', 'New', 'Call', 'Member', 'Primary',
];
const LEVEL = Object.fromEntries(LEVELS.map((name, at) => [name, at]));

// The level of a binary operator's expression.
const OPERATORS = {
  NullishCoalescing: 'Coalesce', LogicalOr: 'Or', LogicalAnd: 'And', BitOr: 'BitOr', BitXor: 'BitXor', BitAnd: 'BitAnd', EqEq: 'Equality', NotEq: 'Equality',
  EqEqEq: 'Equality', NotEqEq: 'Equality', Lt: 'Relational', LtEq: 'Relational', Gt: 'Relational', GtEq: 'Relational', In: 'Relational',
  InstanceOf: 'Relational', LShift: 'Shift', RShift: 'Shift', ZeroFillRShift: 'Shift', Add: 'Additive', Sub: 'Additive', Mul: 'Multiplicative',
  Div: 'Multiplicative', Mod: 'Multiplicative', Exp: 'Exponentiation',
};

// The goals of a binary operator's operands, by its level: on the left that level itself, but for these.
const LEFT_GOALS = { Coalesce: 'CoalesceHead', Exponentiation: 'Update' };
const RIGHT_GOALS = {
  Coalesce: 'BitOr', Or: 'And', And: 'BitOr', BitOr: 'BitXor', BitXor: 'BitAnd', BitAnd: 'Equality', Equality: 'Relational', Relational: 'Shift',
  Shift: 'Additive', Additive: 'Multiplicative', Multiplicative: 'Exponentiation', Exponentiation: 'Exponentiation',
};

// Which levels a goal takes: its own and all above it, but where the chain of productions forks.
const from = (name) => (level) => level >= LEVEL[name];
const GOALS = {
  Expression: from('Sequence'), Assignment: from('Assignment'), ShortCircuit: from('Coalesce'), Or: from('Or'), And: from('And'), BitOr: from('BitOr'),
  BitXor: from('BitXor'), BitAnd: from('BitAnd'), Equality: from('Equality'), Relational: from('Relational'), Shift: from('Shift'),
  Additive: from('Additive'), Multiplicative: from('Multiplicative'), Exponentiation: from('Exponentiation'), Unary: from('Unary'),
  Update: from('Update'), LeftHandSide: from('Optional'), Callee: from('Call'), MemberOnly: from('Member'),
  CoalesceHead: (level) => level === LEVEL.Coalesce || level >= LEVEL.BitOr,
  NewCallee: (level) => level === LEVEL.New || level >= LEVEL.Member,
  ChainBase: (level) => level === LEVEL.Optional || level >= LEVEL.Call,
  ChainLink: (level) => level === LEVEL.Optional,
};

const NAMES = {
  Seq: 'Sequence', Assign: 'Assignment', Arrow: 'Assignment', Yield: 'Assignment', Cond: 'Conditional', Unary: 'Unary', Await: 'Unary', Update: 'Update',
  OptChain: 'Optional', Call: 'Call', SuperProp: 'Member', MetaProp: 'Member',
};

const memberOrCall = (inner) => (GOALS.MemberOnly(levelOf(inner)) ? LEVEL.Member : LEVEL.Call);

// The level of an expression: the least nonterminal that derives it.
function levelOf(node) {
  const kind = tag(node), part = node[kind];
  switch (kind) {
    case 'Bin': return LEVEL[OPERATORS[part.op]];
    case 'New': return part.args === null ? LEVEL.New : LEVEL.Member;
    case 'Member': return memberOrCall(part.obj);
    case 'TaggedTpl': return memberOrCall(part.tag);
    case 'Lit': return isNegative(part) ? LEVEL.Unary : LEVEL.Primary;
    default: return kind in NAMES ? LEVEL[NAMES[kind]] : LEVEL.Primary;
  }
}

module.exports = { LEVEL, GOALS, OPERATORS, LEFT_GOALS, RIGHT_GOALS, levelOf };
