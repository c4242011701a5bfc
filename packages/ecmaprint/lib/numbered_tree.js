'use strict';
// The tree of an AST whose nodes have numbers for positions. So a comment stands at its own node alone, a position that was recorded leads
// back to its node, and nodes that were made or moved have positions too.
const { AstTree, write, programIn } = require('./tree_of/ast_tree.js');
const { check } = require('./tree_of/check.js');
const { babelOf, isEstree } = require('./tree_of/estree.js');
const { markComments, commentsOf } = require('./comments.js');
const { attached } = require('./attach.js');

// How many positions a node has: four, of which the program asks for comments at the first two and the last two.
const STEP = 4, STEP_BITS = 2;

// Positions from here on are outside of the source text that a request has: each stands in a line of its own.
const APART = 2 ** 30;

// Nodes that begin and end where parts of them do: a map has the places of these.
const COVERED = {
  MemberExpression: ['object', 'property'],
  OptionalMemberExpression: ['object', 'property'],
  BinaryExpression: ['left', 'right'],
  LogicalExpression: ['left', 'right'],
  AssignmentExpression: ['left', 'right'],
  ConditionalExpression: ['test', 'alternate'],
};

const sourceOf = ({ loc }) => (loc ? loc.filename || loc.source : null);

function isCovered(node) {
  const ends = COVERED[node.type];
  if (ends === undefined || !Number.isInteger(node.start)) return false;
  const first = node[ends[0]], last = node[ends[1]];
  return first.start === node.start && last.end === node.end && sourceOf(first) === sourceOf(node) && sourceOf(last) === sourceOf(node);
}

// Nodes that are marked have positions, and with `everywhere` ('all', or 'places' for a map) all others too.
class NumberedTree extends AstTree {
  constructor({ everywhere = null, isShort = true, keepsFunctionParentheses = false }) {
    super({ isShort });
    this.keepsFunctionParentheses = keepsFunctionParentheses;
    this.everywhere = everywhere;
    this.nodes = []; // by their numbers
    this.apart = []; // those in lines of their own
    this.marks = new Map(); // the positions of marked nodes, and whether the tree has them
  }

  // Gives a node a position, in the line of all, or in one of its own.
  numbered(node, { isApart = false } = {}) {
    const nodes = isApart ? this.apart : this.nodes, lo = (isApart ? APART : 0) + nodes.length * STEP + 1;
    nodes.push(node);
    return { lo, hi: lo + STEP - 1 };
  }

  mark(node, options) {
    if (!this.marks.has(node)) this.marks.set(node, { span: this.numbered(node, options), isTaken: false });
  }

  span(node) {
    const mark = this.marks.size > 0 ? this.marks.get(node) : undefined;
    if (mark === undefined) return this.everywhere === 'all' || (this.everywhere === 'places' && !isCovered(node)) ? this.numbered(node) : this.unplaced();
    mark.isTaken = true;
    return mark.span;
  }

  // The position of a marked node, where the tree has it.
  spanOf(node) {
    const mark = this.marks.get(node);
    return mark !== undefined && mark.isTaken ? mark.span : null;
  }

  nameSpan(name, start, end, node) {
    return node === undefined ? this.unplaced() : this.span(node);
  }

  warnOfSurrogate() {}

  // The node of a recorded position.
  nodeAt(position) {
    return position > APART ? this.apart[(position - APART - 1) >> STEP_BITS] : this.nodes[(position - 1) >> STEP_BITS];
  }

  // Which end of its node a recorded position is; nothing for those between.
  endAt(position) {
    const at = (position - 1) & (STEP - 1);
    return at === 0 ? 'start' : at === STEP - 1 ? 'end' : null;
  }

  programSpan(program) {
    return this.span(program);
  }

  // A source text of one line for these positions: arrays are printed in one line then.
  line() {
    return ' '.repeat(this.nodes.length * STEP);
  }
}

// Marks cases of a `switch` with one statement, so that it gets a line of its own; in a short text no blank stands before it then. In a longer
// one a block begins in the case's line.
function markCases(cases, source, isMinified) {
  for (const each of cases) {
    const [statement] = each.consequent;
    if (statement.type === 'BlockStatement' && !isMinified) continue;
    source.mark(each);
    source.mark(statement, { isApart: true });
  }
}

// The comments of an AST that stand in a list, as acorn has them, by the nodes that they belong to; `#!` is no comment.
function listed(ast, program, code) {
  const given = [ast.comments, program.comments].find((each) => Array.isArray(each) && each.length > 0) || [];
  const isShebang = (comment) => typeof code === 'string' && code.startsWith('#!') && (comment.start === 0 || (comment.range && comment.range[0] === 0));
  const hashbang = given.find((comment) => isShebang(comment) || /Shebang|Hashbang/.test(comment.type));
  return { list: given.filter((comment) => comment !== hashbang), hashbang };
}

// An AST as a program of Babel's types that was checked: what check.js found, and where its comments hang, if not on its nodes.
function readable(ast, code) {
  const program = programIn(ast), isOther = isEstree(program), of = isOther ? babelOf(program) : program;
  // (of Babel's AST the list alone says nothing: who takes a comment off its nodes leaves it there)
  const { list, hashbang } = isOther ? listed(ast, program, code) : { list: [] };
  const found = check(of), read = hashbang && !of.interpreter ? { ...of, interpreter: { type: 'InterpreterDirective', value: hashbang.value } } : of;
  if (found.commented.length > 0 || list.length === 0) return { program: read, hung: null, ...found };
  const hung = attached(read, list);
  return { program: read, hung, ...check(read, hung) };
}

// Writes the tree of an AST behind the beginning of a text, with its comments where they are wanted (by a function of their texts), and
// positions everywhere or where they are needed.
function built(ast, { begin = '', wants = null, everywhere = null, isMinified = false, isShort = true, code, keepsFunctionParentheses, hasCrLf = false }) {
  const { program, hung, commented, cases, levels } = readable(ast, code), source = new NumberedTree({ everywhere, isShort, keepsFunctionParentheses });
  const hasComments = wants !== null && commented.length > 0;
  markCases(cases, source, isMinified);
  source.mark(program);
  if (hasComments) markComments(commented, source);
  source.put(begin);
  write(source, program);
  const comments = hasComments ? commentsOf(commented, source, { wants, hung, hasCrLf }) : null;
  return { source, comments, levels };
}

module.exports = { built };
