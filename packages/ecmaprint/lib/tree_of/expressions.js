'use strict';
// Expressions, and what only stands in them.

const BINARY = {
  '==': 'EqEq', '!=': 'NotEq', '===': 'EqEqEq', '!==': 'NotEqEq', '<': 'Lt', '<=': 'LtEq', '>': 'Gt', '>=': 'GtEq', '<<': 'LShift', '>>': 'RShift',
  '>>>': 'ZeroFillRShift', '+': 'Add', '-': 'Sub', '*': 'Mul', '/': 'Div', '%': 'Mod', '|': 'BitOr', '^': 'BitXor', '&': 'BitAnd', '||': 'LogicalOr',
  '&&': 'LogicalAnd', in: 'In', instanceof: 'InstanceOf', '**': 'Exp', '??': 'NullishCoalescing',
};
const ASSIGNMENT = {
  '=': 'Assign', '+=': 'AddAssign', '-=': 'SubAssign', '*=': 'MulAssign', '/=': 'DivAssign', '%=': 'ModAssign', '<<=': 'LShiftAssign', '>>=': 'RShiftAssign',
  '>>>=': 'ZeroFillRShiftAssign', '|=': 'BitOrAssign', '^=': 'BitXorAssign', '&=': 'BitAndAssign', '**=': 'ExpAssign', '&&=': 'AndAssign', '||=': 'OrAssign',
  '??=': 'NullishAssign',
};
const UPDATE = { '++': 'PlusPlus', '--': 'MinusMinus' };
const UNARY = { '-': 'Minus', '+': 'Plus', '!': 'Bang', '~': 'Tilde', typeof: 'TypeOf', void: 'Void', delete: 'Delete' };

const META = { 'new.target': 'NewTarget', 'import.meta': 'ImportMeta' };

const isBinary = (node) => node.type === 'BinaryExpression' || node.type === 'LogicalExpression';
const isConst = (type) => type.type === 'TSTypeReference' && type.typeName.name === 'const' && !type.typeParameters;

// What each of Babel's types is in the tree.
const EXPRESSIONS = {
  Identifier: (tree, node) => {
    tree.putNamed('{"Ident":{"sym":', node);
    tree.putFlag(',"optional":', false);
    tree.put('}}');
  },
  MemberExpression: (tree, node) => {
    tree.put(node.object.type === 'Super' ? '{"SuperProp":' : '{"Member":');
    tree.member(node);
    tree.put('}');
  },
  CallExpression: (tree, node) => {
    tree.put('{"Call":');
    tree.call(node);
    tree.put('}');
  },
  ThisExpression: (tree, node) => tree.put(`{"This":{${tree.only(node)}}}`),
  PrivateName: (tree, node) => tree.within('{"PrivateName":', 'privateName', node),
  TemplateLiteral: (tree, node) => tree.within('{"Tpl":', 'template', node),
  TaggedTemplateExpression: (tree, node) => tree.within('{"TaggedTpl":', 'tagged', node),
  ArrayExpression: (tree, node) => {
    tree.put('{"Array":{"elems":');
    tree.listed(node.elements, 'argument');
    tree.putEnd(node, '}}');
  },
  ObjectExpression: (tree, node) => {
    tree.put('{"Object":{"props":');
    tree.listed(node.properties, 'property');
    tree.putEnd(node, '}}');
  },
  FunctionExpression: (tree, node) => {
    tree.put('{"Fn":{"function":');
    tree.function(node);
    tree.optional(',"ident":', node.id, 'ident');
    tree.put('}}');
  },
  ClassExpression: (tree, node) => {
    tree.put('{"Class":{"class":');
    tree.class(node);
    tree.optional(',"ident":', node.id, 'ident');
    tree.put('}}');
  },
  ArrowFunctionExpression: (tree, node) => tree.within('{"Arrow":', 'arrow', node),
  UnaryExpression: (tree, node) => {
    tree.putOperator('{"Unary":{"op":"', UNARY, node);
    tree.put('","arg":');
    tree.expr(node.argument);
    tree.putEnd(node, '}}');
  },
  UpdateExpression: (tree, node) => {
    tree.putOperator('{"Update":{"op":"', UPDATE, node);
    tree.put('"');
    tree.putFlag(',"prefix":', node.prefix);
    tree.put(',"arg":');
    tree.expr(node.argument);
    tree.putEnd(node, '}}');
  },
  BinaryExpression: (tree, node) => tree.binary(node),
  LogicalExpression: (tree, node) => tree.binary(node),
  AssignmentExpression: (tree, node) => {
    tree.putOperator('{"Assign":{"op":"', ASSIGNMENT, node);
    tree.put('","left":');
    tree.target(node.left);
    tree.put(',"right":');
    tree.expr(node.right);
    tree.putEnd(node, '}}');
  },
  ConditionalExpression: (tree, node) => {
    tree.put('{"Cond":{"test":');
    tree.expr(node.test);
    tree.put(',"cons":');
    tree.expr(node.consequent);
    tree.put(',"alt":');
    tree.expr(node.alternate);
    tree.putEnd(node, '}}');
  },
  SequenceExpression: (tree, node) => {
    tree.put('{"Seq":{"exprs":');
    tree.listed(node.expressions, 'expr');
    tree.putEnd(node, '}}');
  },
  ParenthesizedExpression: (tree, node) => tree.within('{"Paren":', 'parentheses', node),
  OptionalMemberExpression: (tree, node) => tree.within('{"OptChain":', 'optChain', node),
  OptionalCallExpression: (tree, node) => tree.within('{"OptChain":', 'optChain', node),
  NewExpression: (tree, node) => tree.within('{"New":', 'newExpr', node),
  YieldExpression: (tree, node) => {
    const place = tree.at(node), marked = tree.flag(',"delegate":', node.delegate) + place;
    if (node.argument) {
      tree.put('{"Yield":{"arg":');
      tree.expr(node.argument);
      tree.put(`${marked}}}`);
    } else tree.put(`{"Yield":{${(tree.none(',"arg":') + marked).slice(1)}}}`);
  },
  AwaitExpression: (tree, node) => {
    tree.put('{"Await":{"arg":');
    tree.expr(node.argument);
    tree.putEnd(node, '}}');
  },
  MetaProperty: (tree, node) => {
    const words = `${node.meta.name}.${node.property.name}`, kind = META[words] || tree.refuse(node, `printed: \`${words}\` has no place in the tree`);
    tree.put(`{"MetaProp":{"kind":"${kind}"${tree.at(node)}}}`);
  },
  JSXElement: (tree, node) => tree.within('{"JSXElement":', 'jsxElement', node),
  JSXFragment: (tree, node) => tree.within('{"JSXFragment":', 'jsxFragment', node),
  TSAsExpression: (tree, node) => (isConst(node.typeAnnotation) ? tree.within('{"TsConstAssertion":', 'parentheses', node) : tree.within('{"TsAs":', 'typed', node)),
  TSSatisfiesExpression: (tree, node) => tree.within('{"TsSatisfies":', 'typed', node),
  TSTypeAssertion: (tree, node) => (isConst(node.typeAnnotation) ? tree.within('{"TsConstAssertion":', 'parentheses', node) : tree.within('{"TsTypeAssertion":', 'typed', node)),
  TSNonNullExpression: (tree, node) => tree.within('{"TsNonNull":', 'parentheses', node),
  TSInstantiationExpression: (tree, node) => tree.within('{"TsInstantiation":', 'instantiation', node),
};

// What each may be as a property of an object.
const PROPERTIES = {
  ObjectProperty: (tree, node) => tree.within('{"Prop":', 'valueProperty', node),
  ObjectMethod: (tree, node) => tree.within('{"Prop":', 'methodProperty', node),
  SpreadElement: (tree, node) => tree.within('{"Spread":', 'spread', node),
};

const expressions = {
  expr(node) {
    const made = EXPRESSIONS[node.type];
    if (made !== undefined) made(this, node);
    else if (!this.literal(node)) this.refuse(node, 'an expression');
  },

  putOperator(begin, names, node) {
    this.put(begin);
    this.put(names[node.operator] || this.refuse(node, `the operator ${node.operator}`));
  },

  // Left operands are often many, so they are gone through in a loop, from the outermost to the innermost and back.
  binary(node) {
    const chain = [];
    let innermost = node;
    for (let outer = null; isBinary(innermost); innermost = innermost.left) {
      if (outer !== null && this.wrapsLeft(outer, innermost)) this.open();
      this.putOperator('{"Bin":{"op":"', BINARY, innermost);
      this.put('","left":');
      chain.push(innermost);
      outer = innermost;
    }
    this.expr(innermost);
    for (let at = chain.length - 1; at >= 0; at--) {
      this.put(',"right":');
      this.expr(chain[at].right);
      this.putEnd(chain[at], '}}');
      if (at > 0 && this.wrapsLeft(chain[at - 1], chain[at])) this.close();
    }
  },

  // Whether a left operand stands in parentheses that its AST has no node for.
  wrapsLeft() {
    return false;
  },

  // The beginning and the end of such parentheses.
  open() {
    this.put('{"Paren":{"expr":');
  },

  close() {
    this.putPlaced(this.unplaced());
    this.put('}}');
  },

  // An expression with nothing but its span, as in parentheses.
  parentheses(node) {
    this.put('{"expr":');
    this.expr(node.expression);
    this.putEnd(node, '}');
  },

  // An argument, or an element of an array, which may be a hole.
  argument(node) {
    if (node === null || node === undefined) this.put('null');
    else if (node.type !== 'SpreadElement') {
      this.put('{"expr":');
      this.expr(node);
      this.put(this.isShort ? '}' : ',"spread":null}');
    } else {
      this.put('{"expr":');
      this.expr(node.argument);
      this.put(`${this.token(',"spread":', this.dots(node.start))}}`);
    }
  },

  // The place of `...`: in an argument it tells that there is one.
  dots(start) {
    return this.between(start, start + 3);
  },

  // `...a`; in a tag the node begins with its brace.
  spread(node) {
    const dots = this.text.indexOf('...', node.start);
    this.put('{"expr":');
    this.expr(node.argument);
    this.put(`${this.token(',"dot3_token":', this.between(dots, dots + 3))}}`);
  },

  tagged(node) {
    this.put('{"tag":');
    this.expr(node.tag);
    this.put(',"tpl":');
    this.template(node.quasi);
    this.optional(',"type_params":', node.typeParameters, 'typeArguments');
    this.putEnd(node, '}');
  },

  call(node) {
    this.put('{"callee":');
    this.callee(node.callee);
    this.list(',"args":', node.arguments, 'argument');
    this.optional(',"type_args":', node.typeParameters, 'typeArguments');
    this.putEnd(node, '}');
  },

  callee(node) {
    if (node.type === 'Super') return this.put(`{"Super":{${this.only(node)}}}`);
    if (node.type === 'Import') return this.put(`{"Import":{"phase":"Evaluation"${this.at(node)}}}`);
    this.put('{"Expr":');
    this.expr(node);
    return this.put('}');
  },

  // Whether `new A` has neither arguments nor an empty list of them.
  isBareNew(node) {
    return node.end === (node.typeParameters || node.callee).end;
  },

  newCallee(node) {
    this.expr(node);
  },

  newExpr(node) {
    this.put('{"callee":');
    this.newCallee(node.callee);
    if (this.isBareNew(node)) this.put(this.none(',"args":'));
    else {
      this.put(',"args":');
      this.listed(node.arguments, 'argument');
    }
    this.optional(',"type_args":', node.typeParameters, 'typeArguments');
    this.putEnd(node, '}');
  },

  // Of an object, or of `super`.
  member(node) {
    const { object } = node;
    this.put('{"obj":');
    if (object.type === 'Super') this.put(`{${this.only(object)}}`);
    else this.object(node);
    this.put(',"prop":');
    this.memberProp(node);
    this.putEnd(node, '}');
  },

  object(node) {
    this.expr(node.object);
  },

  memberProp(node) {
    const { property } = node;
    if (!node.computed && property.type === 'PrivateName') return this.within('{"PrivateName":', 'privateName', property);
    if (!node.computed) {
      this.putNamed('{"Ident":{"sym":', property);
      return this.put('}}');
    }
    const open = Math.max(this.before('[', property.start), node.object.end);
    this.put('{"Computed":{"expr":');
    this.expr(property);
    this.putPlaced(this.between(open, node.end));
    return this.put('}}');
  },

  optChain(node) {
    this.put('{"base":');
    if (node.type === 'OptionalMemberExpression') this.within('{"Member":', 'member', node);
    else this.within('{"Call":', 'optCall', node);
    this.putPlaced(this.span(node));
    this.putFlag(',"optional":', node.optional);
    this.put('}');
  },

  optCall(node) {
    this.put('{"callee":');
    this.expr(node.callee);
    this.list(',"args":', node.arguments, 'argument');
    this.optional(',"type_args":', node.typeParameters, 'typeArguments');
    this.putEnd(node, '}');
  },

  property(node) {
    const made = PROPERTIES[node.type];
    return made ? made(this, node) : this.refuse(node, 'a property');
  },

  // Whether a property is written as this name alone: a plugin that gives one of the two another name may leave the mark.
  isShorthand({ shorthand, computed, key }, name) {
    return !!shorthand && !computed && key.type === 'Identifier' && name.type === 'Identifier' && key.name === name.name;
  },

  valueProperty(node) {
    if (node.decorators) this.without(node, 'decorators');
    const { value } = node;
    if (value.type === 'AssignmentPattern') {
      this.without(value, 'typeAnnotation', 'optional', 'decorators');
      if (this.isShorthand(node, value.left)) {
        this.put('{"Assign":{"key":');
        this.ident(value.left);
        this.put(',"value":');
        this.expr(value.right);
        return this.put('}}');
      }
    }
    if (this.isShorthand(node, value)) return this.within('{"Shorthand":', 'ident', value);
    this.put('{"KeyValue":{"key":');
    this.propName(node.key, node.computed, node.start);
    this.put(',"value":');
    this.expr(value);
    return this.put('}}');
  },

  methodProperty(node) {
    this.without(node, 'decorators', 'static');
    if (node.kind === 'get') this.getter(node);
    else if (node.kind === 'set' && (node.params.length === 1 || node.params.length === 2)) this.setter(node);
    else if (node.kind !== 'method') this.refuse(node, 'a method, nor one that gets, nor one that sets with a parameter');
    else {
      this.put('{"Method":{"key":');
      this.propName(node.key, node.computed, node.start);
      this.put(',"function":');
      this.function(node);
      this.put('}}');
    }
  },

  getter(node) {
    this.without(node, 'async', 'generator', 'typeParameters', 'params');
    this.put('{"Getter":{"key":');
    this.propName(node.key, node.computed, node.start);
    this.put(',"body":');
    this.block(node.body);
    this.optional(',"type_ann":', node.returnType, 'typeAnnotation');
    this.putEnd(node, '}}');
  },

  setter(node) {
    this.without(node, 'async', 'generator', 'typeParameters', 'returnType');
    const param = node.params[node.params.length - 1], first = node.params.length > 1 ? node.params[0] : null;
    this.put('{"Setter":{"key":');
    this.propName(node.key, node.computed, node.start);
    this.optional(',"this_param":', first, 'pat');
    this.put(',"param":');
    this.pat(param);
    this.put(',"body":');
    this.block(node.body);
    this.putEnd(node, '}}');
  },
};

module.exports = expressions;
