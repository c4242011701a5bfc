'use strict';
// Where the comments of an AST stand: at which positions of its tree. docs/COMMENTS.md has the table.
const { NoTree } = require('./tree_of/files.js');
const { TYPES } = require('./tree_of/members.js');
const { wellFormed } = require('./tree_of/source.js');

const LINE_END = /[\n\r\u2028\u2029]/;
const isLine = ({ type }) => type === 'CommentLine' || type === 'Line';
const endsLine = (comment) => isLine(comment) || LINE_END.test(comment.value);
const lineOf = (node, end) => (node && node.loc && node.loc[end] ? node.loc[end].line : null);

// The comments that were put somewhere, each with the statements round it.
class Comments {
  // `hasCrLf` says that CR LF ends the lines of the text, and of its comments.
  constructor(source, { wants, hasCrLf }) {
    Object.assign(this, { source, wants, hasCrLf, records: [], seen: new Set() });
  }

  put(side, at, comment, entry) {
    if (this.seen.has(comment)) return;
    this.seen.add(comment);
    if (typeof comment.value !== 'string') throw new NoTree('a comment has no text', entry.node);
    if (!this.wants(comment.value)) return;
    const kind = isLine(comment) && !LINE_END.test(comment.value) ? 'Line' : 'Block';
    if (kind === 'Block' && comment.value.includes('*/')) throw new NoTree('a comment holds `*/`, which ends it', entry.node);
    const value = this.hasCrLf ? comment.value.replace(/\r?\n/g, '\r\n') : comment.value;
    this.records.push({ side, at, kind, text: wellFormed(value), round: entry.round, statement: entry.statement, node: entry.node });
  }

  // As a request has them: in JSON, by their positions.
  written() {
    const sides = { leading: new Map(), trailing: new Map() };
    for (const { side, at, kind, text } of this.records) {
      const comment = `{"kind":"${kind}","text":${JSON.stringify(text)}}`, before = sides[side].get(at);
      sides[side].set(at, before === undefined ? comment : `${before},${comment}`);
    }
    const [leading, trailing] = [sides.leading, sides.trailing].map((lists) => Array.from(lists, ([at, list]) => `"${at}":[${list}]`).join());
    return `{"leading":{${leading}},"trailing":{${trailing}}}`;
  }

  // The comments that an answer has left.
  among(left) {
    const waiting = { leading: {}, trailing: {} };
    for (const side of ['leading', 'trailing']) for (const at in left[side]) waiting[side][at] = [...left[side][at]];
    return this.records.filter(({ side, at, kind, text }) => {
      const list = waiting[side][at] || [], found = list.findIndex((each) => each.kind === kind && each.text === text);
      if (found >= 0) list.splice(found, 1);
      return found >= 0;
    });
  }

  // Puts what was left before the statement that it stands in, or the next one round that. The answer is whether anything went anywhere.
  lift(left) {
    const lifted = this.among(left).filter((record) => {
      const { round } = record, { source } = this, isThere = (node) => record.side === 'leading' && source.spanOf(node).lo === record.at;
      let { statement } = record;
      while (statement >= 0 && isThere(round[statement])) statement = statementFrom(statement - 1, round, source);
      if (statement < 0) return false;
      Object.assign(record, { side: 'leading', at: source.spanOf(round[statement]).lo, statement: statementFrom(statement - 1, round, source) });
      return true;
    });
    return lifted.length > 0;
  }
}

// Where a comment behind a node is, in another type of node, before a token before which no line may end.
const BOUND_BEHIND = {
  UpdateExpression: ({ prefix }) => !prefix,
  ArrowFunctionExpression: (_, key) => key === 'returnType',
  TSNonNullExpression: () => true,
  TSAsExpression: (_, key) => key === 'expression',
  TSSatisfiesExpression: (_, key) => key === 'expression',
  TSArrayType: () => true,
  TSIndexedAccessType: (_, key) => key === 'objectType',
  TSConditionalType: (_, key) => key === 'checkType',
  TSTypeQuery: ({ typeParameters }, key) => key === 'exprName' && !!typeParameters,
  TSTypeReference: ({ typeParameters }, key) => key === 'typeName' && !!typeParameters,
};

const GIVE_BACK = new Set(['ReturnStatement', 'ThrowStatement', 'YieldExpression']);
// Types in whose first part the program sees no comment when it gives parentheses to what `return` gives back.
const UNSEEN = new Set([
  'UpdateExpression', 'TaggedTemplateExpression', 'TSAsExpression', 'TSSatisfiesExpression', 'TSNonNullExpression', 'TSInstantiationExpression',
]);
const METHODS = ['ObjectMethod', 'ClassMethod', 'ClassPrivateMethod', 'TSDeclareMethod'];

// Whether a comment that ends a line may not stand before or behind a node in another: another program would be read, or none.
function isBound(node, parent, isBehind) {
  const { type } = parent, key = keyIn(parent, node);
  if (type === 'BreakStatement' || type === 'ContinueStatement' || type === 'TSTypePredicate') return true;
  if (type === 'ArrowFunctionExpression' && key === 'params') return parent.params.length === 1 && node.type === 'Identifier';
  if (isBehind) return BOUND_BEHIND[type] !== undefined && BOUND_BEHIND[type](parent, key);
  if (type === 'ArrowFunctionExpression') return key === 'typeParameters' && !!parent.async;
  if (type === 'TSParameterProperty') return key === 'parameter';
  if (type === 'TSTypeQuery' || type === 'TSTypeReference') return key === 'typeParameters';
  if (type === 'TSTypeAliasDeclaration' || type === 'TSInterfaceDeclaration' || type === 'TSModuleDeclaration' || type === 'VariableDeclarator') return key === 'id';
  if (type === 'VariableDeclaration') return parent.declarations[0] === node && parent.kind.endsWith('using');
  if (METHODS.includes(type)) {
    return key === 'key' && (parent.async || parent.kind === 'get' || parent.kind === 'set' || !!parent.accessibility || !!parent.abstract || !!parent.override);
  }
  return key === 'key' && /^Class(?:Private|Accessor)?Property$|^TS(?:Method|Property)Signature$/.test(type);
}

// Types whose text begins with that of their first part.
const BEGIN_WITH_PART = new Set([
  'MemberExpression', 'OptionalMemberExpression', 'CallExpression', 'OptionalCallExpression', 'TaggedTemplateExpression', 'BinaryExpression',
  'LogicalExpression', 'AssignmentExpression', 'ConditionalExpression', 'SequenceExpression', 'UpdateExpression', 'TSAsExpression',
  'TSSatisfiesExpression', 'TSNonNullExpression', 'TSInstantiationExpression', 'TSQualifiedName', 'TSTypeReference', 'TSArrayType',
  'TSIndexedAccessType', 'TSUnionType', 'TSIntersectionType', 'TSConditionalType', 'AssignmentPattern',
]);

// Types whose text ends with that of their last part.
const END_WITH_PART = new Set([
  'MemberExpression', 'OptionalMemberExpression', 'BinaryExpression', 'LogicalExpression', 'AssignmentExpression', 'ConditionalExpression',
  'SequenceExpression', 'UnaryExpression', 'UpdateExpression', 'AwaitExpression', 'YieldExpression', 'ArrowFunctionExpression', 'TSAsExpression',
  'TSSatisfiesExpression', 'TSTypeAssertion', 'TSQualifiedName', 'TSTypeReference', 'TSTypeAnnotation', 'TSTypeOperator', 'TSTypeQuery',
  'TSUnionType', 'TSIntersectionType', 'TSFunctionType', 'TSConstructorType', 'TSConditionalType', 'TSInferType', 'TSTypeParameter',
  'TSTypePredicate', 'AssignmentPattern', 'PrivateName',
]);

// Whether a node's text begins that of the one that holds it, or with `isBehind` ends it.
function isAtEdge(node, parent, isBehind) {
  const parts = partsOf(parent);
  if (isBehind) return END_WITH_PART.has(parent.type) && parts[parts.length - 1] === node;
  return BEGIN_WITH_PART.has(parent.type) && parts[0] === node && !parent.prefix;
}

// Whether a comment that ends a line may not stand before or behind the last of some nodes, each in the one before it. What holds for a node
// holds for the first or the last part in it too.
function mayNotEndLine(round, statement, isBehind) {
  let isUnseen = false;
  for (let at = round.length - 1; at > statement; at--) {
    const node = round[at], parent = round[at - 1];
    if (isBound(node, parent, isBehind)) return true;
    // (the program puts parentheses round what else `return` gives back)
    if (!isBehind && isUnseen && GIVE_BACK.has(parent.type)) return true;
    if (!isAtEdge(node, parent, isBehind)) return false;
    isUnseen = isUnseen || UNSEEN.has(parent.type);
  }
  return false;
}

// The part of a node at which the program asks for the comments before it, or behind it, where that isn't the node itself.
const HEADS = { ObjectMethod: ({ key }) => key, ClassMethod: ({ key }) => key };
const TAILS = {
  ObjectMethod: ({ body }) => body,
  ClassMethod: ({ body }) => body,
  BinaryExpression: ({ right }) => right,
  LogicalExpression: ({ right }) => right,
  SwitchCase: ({ consequent }) => consequent[consequent.length - 1],
};

const STATEMENTS = new Set([...TYPES.keys()].filter((type) => (
  !/^BlockStatement$|TypeParameterDeclaration$/.test(type) && /Statement$|Declaration$|^Class(?:Private|Accessor)?(?:Method|Property)$/.test(type))));

const partIn = (table, node) => (table[node.type] === undefined ? null : table[node.type](node));

// The comments of a node that has them in one list, as recast does.
function sorted({ comments, leadingComments, innerComments, trailingComments }) {
  return {
    leadingComments: [...(leadingComments || []), ...comments.filter(({ leading }) => leading)],
    innerComments: [...(innerComments || []), ...comments.filter(({ leading, trailing }) => !leading && !trailing)],
    trailingComments: [...(trailingComments || []), ...comments.filter(({ leading, trailing }) => !leading && trailing)],
  };
}

// The comments of a node.
function commentsAt(node, hung) {
  if (hung !== null) return hung.get(node);
  return Array.isArray(node.comments) && node.type !== 'Program' ? sorted(node) : node;
}

const listOf = (value) => (Array.isArray(value) ? value : [value]);

// The nodes that a node holds, in the order of the text.
const partsOf = (node) => TYPES.get(node.type).held.flatMap(({ name }) => listOf(node[name])).filter((part) => part);

// The name of the member of a node that holds another.
const keyIn = (parent, node) => TYPES.get(parent.type).held.find(({ name }) => listOf(parent[name]).includes(node)).name;

const isStatement = (node, parent) => STATEMENTS.has(node.type) && !(parent && parent.declaration === node);

// Nodes that have no position in the tree: comments at them stand at the first and the last node in them.
const UNPLACED = new Set([
  'ClassBody', 'ObjectProperty', 'AssignmentPattern', 'SpreadElement', 'ImportAttribute', 'JSXMemberExpression', 'JSXNamespacedName', 'JSXSpreadAttribute',
]);

// Marks a node at whose position comments stand, and those in its place where it may have none.
function markPlace(source, node) {
  source.mark(node);
  if (UNPLACED.has(node.type)) partsOf(node).forEach((part) => markPlace(source, part));
}

// Marks the nodes at which the comments of the last of some nodes may stand: itself, and the statements round it.
function markRound(source, round) {
  const last = round.length - 1, node = round[last], head = partIn(HEADS, node), tail = partIn(TAILS, node);
  for (let at = 0; at < last; at++) if (isStatement(round[at], round[at - 1])) source.mark(round[at]);
  markPlace(source, node);
  if (head) markPlace(source, head);
  if (tail) markPlace(source, tail);
  if (node.body && !Array.isArray(node.body)) source.mark(node.body);
}

// The first node in a node, or the last one, that has a position.
function edgeOf(node, source, isLast) {
  if (source.spanOf(node) || !UNPLACED.has(node.type)) return source.spanOf(node);
  const parts = partsOf(node);
  for (const part of isLast ? parts.reverse() : parts) {
    const span = edgeOf(part, source, isLast);
    if (span) return span;
  }
  return null;
}

// The number of the innermost statement among some nodes, each in the one before it, from this number on outwards; the first is the program.
function statementFrom(most, round, source) {
  let at = most;
  while (at > 0 && !(isStatement(round[at], round[at - 1]) && source.spanOf(round[at]))) at--;
  return at;
}

// The last of some nodes with its comments, and with what tells where they stand.
function entryOf(round, source, hung) {
  const last = round.length - 1, node = round[last];
  return { node, round, statement: statementFrom(last, round, source), comments: commentsAt(node, hung) };
}

// The positions before and behind a node.
function endsOf({ node }, source) {
  const head = partIn(HEADS, node), tail = partIn(TAILS, node);
  return { before: (head && edgeOf(head, source, false)) || edgeOf(node, source, false), behind: (tail && edgeOf(tail, source, true)) || edgeOf(node, source, true) };
}

// Where inner comments stand: before the end of the body, or of the node.
function insideOf({ node }, behind, source) {
  if (node.type === 'Program') return behind.lo;
  const body = node.body && !Array.isArray(node.body) ? source.spanOf(node.body) : null;
  return (body || behind).hi - 1;
}

// Puts the comments of a node. `leads` tells before which node a comment stands: Babel hangs each on both of its neighbours.
function putThose(entry, placed, leads) {
  const { node, round, statement, comments } = entry, { source } = placed, { before, behind } = endsOf(entry, source);
  const outside = source.spanOf(round[statement]).lo, isOwn = round[statement] === node;
  const put = (side, at, comment, isBehind) => {
    const mayNot = at === null || (!isOwn && endsLine(comment) && mayNotEndLine(round, statement, isBehind));
    placed.put(mayNot ? 'leading' : side, mayNot ? outside : at, comment, entry);
  };
  for (const each of comments.leadingComments || []) put('leading', before ? before.lo : null, each, false);
  for (const each of comments.innerComments || []) placed.put('leading', behind ? insideOf(entry, behind, source) : outside, each, entry);
  for (const each of comments.trailingComments || []) {
    const line = lineOf(each, 'start'), next = leads.get(each);
    const isHere = next === undefined || (line !== null && line === lineOf(node, 'end') && line !== lineOf(next, 'start'));
    if (isHere) put('trailing', behind ? behind.hi : null, each, true);
  }
}

// Marks the nodes of a tree at which comments stand. It is done before the tree is made.
function markComments(commented, source) {
  for (const each of commented) markRound(source, each);
}

// The comments of a program that are wanted (by a function of their texts). They hang on the nodes that check.js found, or as `hung` says.
function commentsOf(commented, source, { hung, ...options }) {
  const placed = new Comments(source, options), leads = new Map(), entries = commented.map((each) => entryOf(each, source, hung));
  for (const { node, comments } of entries) for (const each of comments.leadingComments || []) leads.set(each, node);
  for (const entry of entries) putThose(entry, placed, leads);
  return placed;
}

module.exports = { markComments, commentsOf, UNPLACED };
