'use strict';
// Parentheses that an AST has no nodes for, and that the program doesn't put in: those of types, those in namespaces and decorators, and
// those of strings that would be directives.

// Which types have to stand in parentheses inside of another.
const LOOSE = ['TSFunctionType', 'TSConstructorType', 'TSConditionalType'];
const LOOSER = [...LOOSE, 'TSUnionType', 'TSIntersectionType'];
const LOOSEST = [...LOOSER, 'TSTypeOperator', 'TSInferType'];
const INSIDE = {
  TSArrayType: { elementType: LOOSEST },
  TSIndexedAccessType: { objectType: LOOSEST },
  TSOptionalType: { typeAnnotation: LOOSEST },
  TSTypeOperator: { typeAnnotation: LOOSER },
  TSIntersectionType: { types: LOOSER },
  TSUnionType: { types: [...LOOSE, 'TSUnionType'] },
  TSConditionalType: { checkType: LOOSE, extendsType: ['TSConditionalType'] },
};

// `A extends (infer B extends C) ? D : E`: its own `?` would be read as the end of the bound.
function endsInBound(node) {
  if (node.type === 'TSInferType') return !!node.typeParameter.constraint;
  return (node.type === 'TSFunctionType' || node.type === 'TSConstructorType') && !!node.typeAnnotation && endsInBound(node.typeAnnotation.typeAnnotation);
}

const isIn = (part, node) => part === node || (Array.isArray(part) && part.includes(node));

function isLoose(parent, node) {
  const places = parent && INSIDE[parent.type];
  const name = places && Object.keys(places).find((each) => isIn(parent[each], node));
  if (name === undefined || name === null) return false;
  const hasOne = (each) => each.types && each.types.length < 2; // a union of one type is that type
  if (hasOne(node) || (hasOne(parent) && name === 'types')) return false;
  if (parent.type === 'TSConditionalType' && endsInBound(node)) return true;
  const isNegative = node.type === 'TSLiteralType' && node.literal.type === 'UnaryExpression';
  if (isNegative && /^TS(?:Array|IndexedAccess)Type$/.test(parent.type)) return true;
  return places[name].includes(node.type);
}

// What needs no parentheses wherever an expression may stand.
const BARE = new Set([
  'Identifier', 'ThisExpression', 'StringLiteral', 'BooleanLiteral', 'NullLiteral', 'RegExpLiteral', 'TemplateLiteral', 'ArrayExpression',
  'MemberExpression', 'CallExpression', 'OptionalMemberExpression', 'OptionalCallExpression', 'ParenthesizedExpression', 'TSNonNullExpression', 'MetaProperty',
  'PrivateName', 'TSQualifiedName', 'JSXElement', 'JSXFragment', 'Super', 'Import', 'TaggedTemplateExpression', 'TSInstantiationExpression',
  'TSExpressionWithTypeArguments',
]);
const isNumber = ({ type, value }) => (type === 'NumericLiteral' ? value >= 0 && !Object.is(value, -0) : type === 'BigIntLiteral' && value[0] !== '-');
const isBare = (node) => BARE.has(node.type) || isNumber(node);

// Names, dots and one call behind `@`.
function isPlainDecorator({ expression }) {
  let head = expression.type === 'CallExpression' ? expression.callee : expression;
  while (head.type === 'MemberExpression' && !head.computed) head = head.object;
  return head.type === 'Identifier' || expression.type === 'ParenthesizedExpression';
}

const isText = (statement) => statement.type === 'ExpressionStatement' && statement.expression.type === 'StringLiteral';
// (ESTree marks a directive; who makes one by hand leaves it at the string)
const isDirective = (node, statement) => !Array.isArray(node.directives)
  && (typeof statement.directive === 'string' || (statement.start === undefined && !statement.range));

const isTyped = ({ type }) => type === 'TSAsExpression' || type === 'TSSatisfiesExpression' || type === 'TSTypeAssertion';

// A class of trees with these parentheses.
const mended = (Base) => class extends Base {
  constructor(...given) {
    super(...given);
    this.loose = 0; // in how many parts it is that the program puts no parentheses in
    this.keepsFunctionParentheses = false;
    this.guarded = new Set(); // statements whose strings would be directives
    this.around = null; // the type that another stands in
  }

  expr(node) {
    const isKept = this.keepsFunctionParentheses && node.type === 'FunctionExpression' && node.extra && node.extra.parenthesized;
    return isKept || (this.loose > 0 && !isBare(node)) ? this.parenthesized(node) : super.expr(node);
  }

  // An expression in a pair of parentheses: its own, where it has one.
  parenthesized(node) {
    if (node.type === 'ParenthesizedExpression') return super.expr(node);
    this.open();
    super.expr(node);
    return this.close();
  }

  type(node) {
    const { around } = this, isWrapped = isLoose(around, node);
    this.around = node;
    if (isWrapped) this.put('{"TsParenthesizedType":{"type_ann":');
    super.type(node);
    if (isWrapped) this.close();
    this.around = around;
  }

  // In namespaces and decorators the program puts no parentheses, so more than needed stand there.
  loosely(make) {
    this.loose++;
    make();
    this.loose--;
  }

  namespaceBody(node) {
    this.loosely(() => super.namespaceBody(node));
  }

  decorator(node) {
    this.loosely(() => (isPlainDecorator(node) ? super.decorator(node) : this.holding(node)));
  }

  // A node with its expression in parentheses.
  holding(node) {
    this.put('{"expr":');
    this.parenthesized(node.expression);
    this.putEnd(node, '}');
  }

  // (of `a < b > (c)` TypeScript reads a call, with a type argument)
  wrapsLeft(outer, inner) {
    return this.loose > 0 || (outer.operator === '>' && inner.operator === '<');
  }

  object(node) {
    if (this.loose > 0 && node.type === 'MemberExpression' && /^Optional/.test(node.object.type)) this.parenthesized(node.object);
    else super.object(node);
  }

  callee(node) {
    if (this.loose > 0 && /^Optional/.test(node.type)) this.within('{"Expr":', 'parenthesized', node);
    else super.callee(node);
  }

  newCallee(node) {
    if (this.loose > 0 && node.type !== 'Identifier') this.parenthesized(node);
    else super.newCallee(node);
  }

  // `declare const a = -1` is no declaration with parentheses
  initializer(node) {
    if (this.loose > 0 && node.type === 'UnaryExpression') super.expr(node);
    else super.initializer(node);
  }

  // `(a as b) = c`
  simpleTarget(node) {
    if (isTyped(node)) this.parenthesized(node);
    else super.simpleTarget(node);
  }

  // `for ((async) of a)`, `for ((let) in a)`
  forHead(node) {
    if (node.type !== 'Identifier' || (node.name !== 'async' && node.name !== 'let')) return super.forHead(node);
    this.put('{"Pat":{"Expr":');
    this.parenthesized(node);
    return this.put('}}');
  }

  // Notes the statements at the beginning of a body that are strings and no directives: each gets parentheses.
  guard(node) {
    for (const each of node.body) {
      if (!isText(each)) return;
      if (!isDirective(node, each)) this.guarded.add(each);
    }
  }

  body(begin, node) {
    this.guard(node);
    super.body(begin, node);
  }

  moduleBody(begin, node) {
    this.guard(node);
    super.moduleBody(begin, node);
  }

  expressionStatement(node) {
    if (this.guarded.size > 0 && this.guarded.has(node)) this.holding(node);
    else super.expressionStatement(node);
  }
};

module.exports = { mended };
