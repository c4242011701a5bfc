'use strict';
// Whether an AST is one that the builder reads whole: each node of a type that the tree has a place for, with members of the right sorts, and
// with none that nothing would read. A program without it would be another program.
const { NoTree } = require('./files.js');
const { TYPES, COMMENTS } = require('./members.js');

const isNone = (value) => value === undefined || value === null || value === false || (Array.isArray(value) && value.length === 0);
const isNode = (value) => value !== null && typeof value === 'object' && typeof value.type === 'string';

const FLOW = /^(?:Declare|Opaque)|TypeAnnotation$|^(?:TypeAlias|TypeParameterInst|TypeCast|Typeof|Object(?:Type|Call)|InterfaceDeclaration|InterfaceExtends|ClassImplements|Variance|Inferred|Declared|FunctionTypeParam|QualifiedType|Indexed|OptionalIndexed|Enum(?:Declaration|\w+Body|\w+Member))/;
const PROPOSALS = /^(?:Pipeline|Topic|Do|Bind|Record|Tuple|Module)(?:\w*Expression|Reference|\w*Topic\w*)$|^(?:DecimalLiteral|ArgumentPlaceholder|Placeholder|V8IntrinsicIdentifier|Noop)$/;

// What sort of type it is that no tree has, in words.
function sortOf(type) {
  if (FLOW.test(type)) return `${type} is a type of Flow, which has no place in the tree`;
  if (PROPOSALS.test(type)) return `${type} is of a proposal, which has no place in the tree`;
  return `${type} is no type of node that the tree has a place for`;
}

const nameOf = (value) => (isNode(value) ? value.type : value === null ? 'null' : Array.isArray(value) ? 'a list' : typeof value === 'object' ? 'an object without a type' : typeof value);

// Refuses a node's value, where it is of none of the sorts that its type says.
function checkValue(node, value, { name, values, mayMiss }) {
  if (value === undefined || value === null) {
    if (!mayMiss && !values.includes('null')) throw new NoTree(`${node.type} has no \`${name}\``, node);
  } else if (!values.includes(typeof value) && values[0] !== 'any') {
    throw new NoTree(`\`${name}\` of ${node.type} is ${nameOf(value)}, not ${values[0]}`, node, [name]);
  }
}

function checkNode(value, member, node, steps) {
  if (!isNode(value)) throw new NoTree(`\`${member.name}\` of ${node.type} ${value === null || value === undefined ? 'has no node' : `has ${nameOf(value)}, which is no node`}`, node, steps);
  if (member.types !== null && !member.types.includes(value.type) && TYPES.has(value.type)) {
    throw new NoTree(`\`${member.name}\` of ${node.type} is ${value.type}, not ${member.types.join(' or ')}`, value);
  }
}

function checkList(list, member, node, waiting) {
  const { name, hasHoles } = member;
  if (!Array.isArray(list)) throw new NoTree(`\`${name}\` of ${node.type} ${list === undefined || list === null ? 'has no list' : `is ${nameOf(list)}, not a list`}`, node, [name]);
  for (let at = list.length - 1; at >= 0; at--) {
    const item = list[at];
    if (hasHoles && (item === null || item === undefined)) continue;
    if (member.types !== null || !isNode(item)) checkNode(item, member, node, [name, at]);
    waiting.push(item);
  }
}

// Nodes of a type with the same members in the same order have a shape: which of their members hold values and nodes, which are comments, and
// which nothing reads.
class Shape {
  constructor(type, names) {
    const others = names.filter((name) => !type.names.has(name) && name[0] !== '_'), isThere = ({ name }) => names.includes(name);
    this.names = names;
    this.values = type.values.filter((member) => isThere(member) || !member.mayMiss);
    this.held = type.held.filter((member) => isThere(member) || !member.mayMiss).reverse();
    this.comments = others.filter((name) => COMMENTS.includes(name));
    this.unread = others.filter((name) => !COMMENTS.includes(name));
  }
}

const MOST_SHAPES = 1000; // of a type: an AST may have members at random

// The shape of a node. The last one with so many members is mostly the one.
function shapeOf(node, type) {
  const names = Object.keys(node), { shapes } = type, last = shapes.latest[names.length];
  let at = last === undefined ? -1 : 0;
  while (at >= 0 && at < names.length) at = names[at] === last.names[at] ? at + 1 : -1;
  if (at >= 0) return last;
  const key = names.join();
  if (!shapes.known.has(key)) {
    if (shapes.known.size === MOST_SHAPES) shapes.known.clear();
    shapes.known.set(key, new Shape(type, names));
  }
  shapes.latest[names.length] = shapes.known.get(key);
  return shapes.latest[names.length];
}

// Refuses a member of a node that nothing reads. The answer is whether comments hang on the node.
function checkOthers(node, { comments, unread }) {
  for (const name of unread) if (!isNone(node[name])) throw new NoTree(`${node.type} can't be printed with its \`${name}\``, node, [name]);
  return comments.some((name) => !isNone(node[name]) && (name !== 'comments' || node.type !== 'Program'));
}

// Adds the nodes that a node holds to a list, the last of the text first.
function addHeld(node, held, waiting) {
  for (let at = 0; at < held.length; at++) {
    const member = held[at], value = node[member.name];
    if ((value === undefined || value === null) && member.mayMiss) continue;
    if (member.isList) checkList(value, member, node, waiting);
    else {
      if (member.types !== null || !isNode(value)) checkNode(value, member, node, [member.name]);
      waiting.push(value);
    }
  }
}

const MOST_LEVELS = 50000; // far more than anything that is printed has

// Throws where a node, or one below it, isn't read whole. The answer is how deep they nest, which nodes have comments, each as the last of those
// round it from the outermost on, and which cases of a `switch` have one statement. `hung` has the comments of nodes, where they don't hang there.
function check(top, hung = null) {
  const waiting = [top], levelsOf = [0], onWay = [], commented = [], cases = [];
  let deepest = 0;
  while (waiting.length > 0) {
    const node = waiting.pop(), level = levelsOf[waiting.length], type = TYPES.get(node.type);
    if (type === undefined) throw new NoTree(sortOf(node.type), node);
    const shape = shapeOf(node, type), { values, held } = shape;
    const hasComments = (shape.unread.length > 0 || shape.comments.length > 0) && checkOthers(node, shape);
    if (hung === null ? hasComments : hung.has(node)) commented.push([...onWay.slice(0, level), node]);
    for (let at = 0; at < values.length; at++) {
      if (typeof node[values[at].name] !== values[at].sort) checkValue(node, node[values[at].name], values[at]);
    }
    if (held.length === 0) continue;
    onWay[level] = node;
    if (level >= deepest) deepest = level + 1;
    if (level >= MOST_LEVELS) throw new RangeError('the AST nests without an end');
    const before = waiting.length;
    addHeld(node, held, waiting);
    for (let at = before; at < waiting.length; at++) levelsOf[at] = level + 1;
    if (type.isCase && node.consequent.length === 1) cases.push(node);
  }
  return { levels: deepest, commented, cases };
}

module.exports = { check, isNode, isNone, nameOf };
