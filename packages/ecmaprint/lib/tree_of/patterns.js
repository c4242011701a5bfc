'use strict';
// Patterns, and what is assigned to.
const { isNone } = require('./check.js');

const asExpression = (tree, node) => tree.expr(node);

const TARGETS = {
  Identifier: (tree, node) => {
    tree.put('{"Ident":{"id":');
    tree.ident(node);
    tree.put(tree.isShort ? '}}' : ',"type_ann":null}}');
  },
  MemberExpression: asExpression,
  ParenthesizedExpression: asExpression,
  OptionalMemberExpression: asExpression,
  OptionalCallExpression: asExpression,
  TSAsExpression: (tree, node) => tree.within('{"TsAs":', 'typed', node),
  TSSatisfiesExpression: (tree, node) => tree.within('{"TsSatisfies":', 'typed', node),
  TSTypeAssertion: (tree, node) => tree.within('{"TsTypeAssertion":', 'typed', node),
  TSNonNullExpression: asExpression,
  TSInstantiationExpression: asExpression,
  // a call may be a target by old rules, and has no other place among them
  CallExpression: (tree, node) => {
    tree.put('{"Paren":{"expr":');
    tree.expr(node);
    tree.putEnd(node, '}}');
  },
};

const PATTERNS = {
  Identifier: (tree, node) => {
    tree.put('{"Ident":');
    tree.binding(node);
    tree.put('}');
  },
  ArrayPattern: (tree, node) => tree.within('{"Array":', 'arrayPat', node),
  ObjectPattern: (tree, node) => tree.within('{"Object":', 'objectPat', node),
  RestElement: (tree, node) => tree.within('{"Rest":', 'restPat', node),
  AssignmentPattern: (tree, node) => tree.within('{"Assign":', 'assignPat', node),
};

const patterns = {
  pat(node) {
    if (node.decorators && !isNone(node.decorators) && PATTERNS[node.type]) this.without(node, 'decorators');
    this.undecorated(node);
  },

  // A pattern whose decorators another reads.
  undecorated(node) {
    const made = PATTERNS[node.type];
    if (made) made(this, node);
    else this.within('{"Expr":', 'expr', node);
  },

  // An element of an array pattern, which may be a hole.
  element(node) {
    if (node === null || node === undefined) this.put('null');
    else this.pat(node);
  },

  // The end of a pattern, with its `?` and its type.
  typedEnd(node) {
    this.putFlag(',"optional":', node.optional);
    this.optional(',"type_ann":', node.typeAnnotation, 'typeAnnotation');
    this.putEnd(node, '}');
  },

  arrayPat(node) {
    this.put('{"elems":');
    this.listed(node.elements, 'element');
    this.typedEnd(node);
  },

  objectPat(node) {
    this.put('{"props":');
    this.listed(node.properties, 'patProp');
    this.typedEnd(node);
  },

  restPat(node) {
    this.without(node, 'optional');
    this.put('{"arg":');
    this.pat(node.argument);
    this.put(this.token(',"dot3_token":', this.between(node.start, node.start + 3)));
    this.optional(',"type_ann":', node.typeAnnotation, 'typeAnnotation');
    this.putEnd(node, '}');
  },

  // (the decorators of `@a b = 1` are those of `b`)
  assignPat(node) {
    this.without(node, 'typeAnnotation', 'optional');
    this.put('{"left":');
    this.undecorated(node.left);
    this.put(',"right":');
    this.expr(node.right);
    this.putEnd(node, '}');
  },

  patProp(node) {
    if (node.type === 'RestElement') return this.within('{"Rest":', 'restPat', node);
    this.without(node, 'decorators');
    const { value } = node, hasDefault = value.type === 'AssignmentPattern', name = hasDefault ? value.left : value;
    if (this.isShorthand(node, name)) return this.shorthandPat(node, name, hasDefault ? value : null);
    this.put('{"KeyValue":{"key":');
    this.propName(node.key, node.computed, node.start);
    this.put(',"value":');
    this.pat(value);
    return this.put('}}');
  },

  // `a` or `a = b` in an object pattern
  shorthandPat(node, name, assigned) {
    if (assigned !== null) this.without(assigned, 'typeAnnotation', 'optional', 'decorators');
    this.without(name, 'decorators');
    this.put('{"Assign":{"key":');
    this.binding(name);
    this.optional(',"value":', assigned && assigned.right, 'expr');
    this.putEnd(node, '}}');
  },

  target(node) {
    if (node.type === 'ArrayPattern' || node.type === 'ObjectPattern') return this.within('{"Pat":', 'pat', node);
    return this.within('{"Simple":', 'simpleTarget', node);
  },

  simpleTarget(node) {
    const made = TARGETS[node.type];
    return made ? made(this, node) : this.refuse(node, 'a target of an assignment');
  },
};

module.exports = patterns;
