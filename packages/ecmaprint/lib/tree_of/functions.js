'use strict';
// Functions, and classes with their members.

const KINDS = { get: 'Getter', set: 'Setter', method: 'Method' };
const capital = (word) => word[0].toUpperCase() + word.slice(1);

const MEMBERS = {
  ClassMethod: (tree, node) => tree.method(node),
  ClassPrivateMethod: (tree, node) => tree.method(node),
  TSDeclareMethod: (tree, node) => tree.method(node),
  ClassProperty: (tree, node) => tree.within('{"ClassProp":', 'field', node),
  ClassPrivateProperty: (tree, node) => tree.within('{"PrivateProp":', 'privateField', node),
  ClassAccessorProperty: (tree, node) => tree.within('{"AutoAccessor":', 'accessor', node),
  StaticBlock: (tree, node) => {
    tree.put('{"StaticBlock":{"body":{"stmts":');
    tree.listed(node.body, 'stmt');
    tree.put(`${tree.placed(tree.between(tree.text.indexOf('{', node.start), node.end))}}${tree.at(node)}}}`);
  },
  TSIndexSignature: (tree, node) => tree.within('{"TsIndexSignature":', 'indexSignature', node),
};

const functions = {
  decorator(node) {
    this.parentheses(node);
  },

  decorators(node) {
    this.list(',"decorators":', node.decorators, 'decorator');
  },

  // (of `@a b = 1` Babel gives the decorators to `b`)
  param(node) {
    this.put('{"pat":');
    this.undecorated(node);
    if (node.type === 'AssignmentPattern') this.lists(',"decorators":', node.decorators, 'decorator', node.left.decorators, 'decorator');
    else this.decorators(node);
    this.putEnd(node, '}');
  },

  // The end of a function, with its marks and types. (Only a method has decorators: its own)
  signature(node, decorated) {
    this.putFlag(',"is_generator":', node.generator);
    this.putFlag(',"is_async":', node.async);
    if (decorated === 'own') this.decorators(node);
    else if (decorated === 'none') this.put(this.empty(',"decorators":'));
    this.optional(',"type_params":', node.typeParameters, 'typeParams');
    this.optional(',"return_type":', node.returnType, 'typeAnnotation');
    this.putEnd(node, '}');
  },

  function(node, decorated = 'none') {
    this.put('{"params":');
    this.listed(node.params, 'param');
    this.optional(',"body":', node.body, 'block');
    this.signature(node, decorated);
  },

  arrow(node) {
    if (node.generator || node.id) this.without(node, 'generator', 'id');
    for (const each of node.params) if (each.type === 'AssignmentPattern') this.without(each.left, 'decorators');
    this.put('{"params":');
    this.listed(node.params, 'pat');
    this.put(',"body":');
    if (node.body.type === 'BlockStatement') this.within('{"BlockStmt":', 'block', node.body);
    else this.within('{"Expr":', 'expr', node.body);
    this.signature(node, 'never');
  },

  class(node) {
    this.put('{"body":');
    this.listed(node.body.body, 'classMember');
    this.decorators(node);
    this.optional(',"super_class":', node.superClass, 'expr');
    this.putFlag(',"is_abstract":', node.abstract);
    this.optional(',"type_params":', node.typeParameters, 'typeParams');
    this.optional(',"super_type_params":', node.superTypeParameters, 'typeArguments');
    this.list(',"implements":', node.implements, 'heritage');
    this.putEnd(node, '}');
  },

  classMember(node) {
    const made = MEMBERS[node.type];
    return made ? made(this, node) : this.refuse(node, 'a member of a class');
  },

  accessibility(node) {
    return node.accessibility ? `,"accessibility":"${capital(node.accessibility)}"` : this.none(',"accessibility":');
  },

  classConstructor(node) {
    this.without(node, 'optional', 'returnType', 'typeParameters', 'decorators', 'static', 'abstract', 'override', 'async', 'generator', 'computed');
    if (node.key.name !== 'constructor' && node.key.value !== 'constructor') this.refuse(node, 'a constructor: its key has another name');
    this.put('{"params":');
    this.listed(node.params, 'constructorParam');
    this.optional(',"body":', node.body, 'block');
    this.put(`${this.accessibility(node)}${this.at(node)}}`);
  },

  constructorParam(node) {
    return node.type === 'TSParameterProperty' ? this.within('{"TsParamProp":', 'paramProp', node) : this.within('{"Param":', 'param', node);
  },

  method(node) {
    if (node.kind === 'constructor') return this.within('{"Constructor":', 'classConstructor', node);
    const isPrivate = node.key.type === 'PrivateName', kind = KINDS[node.kind] || this.refuse(node, `a member of the kind ${node.kind}`);
    if (isPrivate) this.without(node, 'computed');
    this.put(isPrivate ? '{"PrivateMethod":{"key":' : '{"Method":{"key":');
    if (isPrivate) this.privateName(node.key);
    else this.propName(node.key, node.computed, node.start);
    this.put(',"kind":"');
    this.put(kind);
    this.put('","function":');
    this.function(node, 'own');
    this.putFlag(',"is_static":', node.static);
    this.put(this.accessibility(node));
    this.putFlag(',"is_abstract":', node.abstract);
    this.putFlag(',"is_optional":', node.optional);
    this.putFlag(',"is_override":', node.override);
    return this.putEnd(node, '}}');
  },

  // What all fields have behind their keys.
  fieldParts(node) {
    this.optional(',"value":', node.value, 'expr');
    this.optional(',"type_ann":', node.typeAnnotation, 'typeAnnotation');
    this.putFlag(',"is_static":', node.static);
    this.putFlag(',"is_override":', node.override);
    this.putFlag(',"definite":', node.definite);
    this.decorators(node);
    this.put(`${this.accessibility(node)}${this.at(node)}`);
  },

  field(node) {
    this.put('{"key":');
    this.propName(node.key, node.computed, node.start);
    this.fieldParts(node);
    this.putFlag(',"is_abstract":', node.abstract);
    this.putFlag(',"is_optional":', node.optional);
    this.putFlag(',"readonly":', node.readonly);
    this.putFlag(',"declare":', node.declare);
    this.put('}');
  },

  privateField(node) {
    this.put('{"key":');
    this.privateName(node.key);
    this.fieldParts(node);
    this.putFlag(',"is_optional":', node.optional);
    this.putFlag(',"readonly":', node.readonly);
    this.put('}');
  },

  accessor(node) {
    this.put('{"key":');
    if (node.key.type === 'PrivateName') this.within('{"Private":', 'privateName', node.key);
    else {
      this.put('{"Public":');
      this.propName(node.key, node.computed, node.start);
      this.put('}');
    }
    this.fieldParts(node);
    this.putFlag(',"is_abstract":', node.abstract);
    this.put('}');
  },

  // `private a` among the parameters of a constructor.
  paramProp(node) {
    const { parameter } = node;
    this.without(parameter, 'decorators');
    if (parameter.type === 'AssignmentPattern') this.without(parameter.left, 'decorators');
    this.put('{"param":');
    if (parameter.type === 'Identifier') this.within('{"Ident":', 'binding', parameter);
    else this.within('{"Assign":', 'assignPat', parameter);
    this.put(this.accessibility(node));
    this.putFlag(',"is_override":', node.override);
    this.putFlag(',"readonly":', node.readonly);
    this.decorators(node);
    this.putEnd(node, '}');
  },
};

module.exports = functions;
