'use strict';
// Expressions, ECMA-262 13.
const { OPERATORS, LEFT_GOALS, RIGHT_GOALS } = require('./levels.js');
const { tag, held, paren, isUnspelled } = require('./nodes.js');
const { BEGINNINGS, elementAtEnd } = require('./edges.js');

const isEmptyNew = (node) => !!node.New && node.New.args !== null && node.New.args.length === 0;
const isChain = (node) => tag(node) === 'OptChain';

// What each type asks of its parts. `within` is the context of what stands in brackets, and of all that hands no [In] on.
const EXPRESSIONS = {
  This: (walk, part) => part,
  MetaProp: (walk, part) => part,
  Ident: (walk, part, context) => { walk.name(part, context); return part; },
  Lit: (walk, part) => walk.literal(part),
  Array: (walk, part, context, within) => ({ ...part, elems: part.elems.map((each) => each && walk.argument(each, within)) }),
  Object: (walk, part, context, within) => ({ ...part, props: part.props.map((each) => walk.property(each, within)) }),
  Fn: (walk, part, context) => {
    walk.bound(part.ident, { ...context, yield: part.function.is_generator, await: part.function.is_async });
    return { ...part, function: walk.function(part.function, context) };
  },
  Class: (walk, part, context) => {
    walk.bound(part.ident, { ...context, strict: true });
    return { ...part, class: walk.class(part.class, context) };
  },
  Unary: (walk, part, context, within) => ({ ...part, arg: walk.expr(part.arg, 'Unary', within) }),
  Await: (walk, part, context, within) => {
    if (!context.await || context.bars) walk.fault('grammar', 'await where it is no operator');
    return { ...part, arg: walk.expr(part.arg, 'Unary', within) };
  },
  Update: (walk, part, context, within) => {
    const arg = walk.expr(part.arg, part.prefix ? 'Unary' : 'LeftHandSide', within);
    if (!walk.isSimple(arg, context)) walk.fault('grammar', 'target of an update');
    return { ...part, arg };
  },
  Bin: (walk, part, context) => walk.binary(part, context),
  Assign: (walk, part, context) => ({
    ...part, left: walk.target(part.left, part.op, context), right: walk.expr(part.right, 'Assignment', context),
  }),
  Cond: (walk, part, context, within) => ({
    ...part, test: walk.expr(part.test, 'ShortCircuit', context), cons: walk.expr(part.cons, 'Assignment', within),
    alt: walk.expr(part.alt, 'Assignment', context),
  }),
  Seq: (walk, part, context) => {
    if (part.exprs.length < 2) walk.fault('grammar', 'a sequence of fewer than two');
    return { ...part, exprs: part.exprs.map((each) => walk.expr(each, 'Assignment', context)) };
  },
  Yield: (walk, part, context) => {
    if (!context.yield || context.bars) walk.fault('grammar', 'yield where it is no operator');
    if (part.delegate && !part.arg) walk.fault('grammar', 'yield* without operand');
    return { ...part, arg: walk.optionalExpr(part.arg, 'Assignment', context) };
  },
  Arrow: (walk, part, context) => walk.arrow(part, context),
  Member: (walk, part, context, within) => walk.member(part, 'Callee', within),
  SuperProp: (walk, part, context, within) => ({ ...part, prop: walk.memberProp(part.prop, within) }),
  Call: (walk, part, context, within) => walk.call(part, within),
  New: (walk, part, context, within, isCalled) => walk.newExpr(part, within, isCalled),
  OptChain: (walk, part, context, within) => walk.chain(part, within),
  Tpl: (walk, part, context, within) => walk.template(part, within),
  TaggedTpl: (walk, part, context, within) => {
    if (part.type_params) walk.scope('type arguments');
    return { ...part, tag: walk.expr(part.tag, 'Callee', within), tpl: walk.template(part.tpl, within) };
  },
  Paren: (walk, part, context, within) => ({ ...part, expr: walk.expr(part.expr, 'Expression', within) }),
  JSXElement: (walk, part, context, within) => walk.jsxElement(part, within),
  JSXFragment: (walk, part, context, within) => walk.jsxFragment(part, within),
  PrivateName: (walk, part) => { walk.fault('grammar', '#a that is no left operand of in'); return part; },
};

const PROPERTIES = {
  Shorthand: (walk, part, context) => { walk.name(part, context); return part; },
  KeyValue: (walk, part, context) => ({ ...part, key: walk.propName(part.key, context), value: walk.expr(part.value, 'Assignment', context) }),
  // `{a = b}`, which stands only where it covers a pattern
  Assign: (walk, part, context) => {
    walk.fault('grammar', '`a = b` in an object');
    return { ...part, value: walk.expr(part.value, 'Assignment', context) };
  },
  Getter: (walk, part, context) => {
    if (!part.body || part.type_ann) walk.scope('getter');
    return { ...part, key: walk.propName(part.key, context), body: part.body && walk.functionBody(part.body, walk.plain(context)) };
  },
  Setter: (walk, part, context) => {
    if (!part.body || part.this_param) walk.scope('setter');
    const own = walk.plain(context);
    return {
      ...part, key: walk.propName(part.key, context), param: walk.parameter(part.param, own, false), body: part.body && walk.functionBody(part.body, own),
    };
  },
  Method: (walk, part, context) => ({ ...part, key: walk.propName(part.key, context), function: walk.function(part.function, context) }),
};

const expressions = {
  // An expression whose level its place takes; `isCalled` where it is called, or has a member.
  inside(node, context, isCalled) {
    const kind = tag(node), made = EXPRESSIONS[kind];
    if (made) return { [kind]: made(this, node[kind], context, { ...context, in: true }, isCalled) };
    this.scope(kind);
    return node;
  },

  literal(literal) {
    if (isUnspelled(literal)) this.fault('grammar', 'a number that no literal is');
    if (literal.JSXText) this.fault('grammar', 'text of JSX');
    return literal;
  },

  binary(part, context) {
    const level = OPERATORS[part.op], rightGoal = RIGHT_GOALS[level];
    const isPrivate = part.op === 'In' && tag(part.left) === 'PrivateName';
    const made = { ...part, left: isPrivate ? part.left : this.expr(part.left, LEFT_GOALS[level] || level, context) };
    // Babel and TypeScript take `<a/> < b` for an element beside another
    const element = part.op === 'Lt' ? elementAtEnd(made, 'left', this.minified) : null;
    if (element && this.mends) element.holder[element.key] = paren(element.holder[element.key]);
    else if (element) this.fault('lookahead', '< behind an element of JSX');
    return { ...made, right: this.expr(part.right, rightGoal, context) };
  },

  argument(part, context) {
    return { ...part, expr: this.expr(part.expr, 'Assignment', context) };
  },

  arguments(args, context) {
    return args.map((each) => this.argument(each, context));
  },

  member(part, goal, context) {
    return { ...part, obj: this.expr(part.obj, goal, context), prop: this.memberProp(part.prop, context) };
  },

  memberProp(prop, context) {
    return prop.Computed ? { Computed: { ...prop.Computed, expr: this.expr(prop.Computed.expr, 'Expression', context) } } : prop;
  },

  call(part, context) {
    const { callee, args, type_args } = part;
    if (type_args) this.scope('type arguments');
    const isImport = tag(callee) === 'Import';
    if (isImport && (args.length < 1 || args.length > 2 || args.some(({ spread }) => spread))) this.fault('grammar', 'arguments of import()');
    const made = tag(callee) === 'Expr' ? { Expr: this.expr(callee.Expr, 'Callee', context) } : callee;
    return { ...part, callee: made, args: this.arguments(args, context) };
  },

  // Minified, `new A()` loses its parentheses, but where it is called or has a member. As the callee of a `new` that keeps its own it is New then,
  // and not Member.
  newExpr(part, context, isCalled) {
    const { callee, args, type_args } = part;
    if (type_args) this.scope('type arguments');
    let made;
    if (args === null || (args.length === 0 && !isCalled) || !isEmptyNew(callee)) made = this.expr(callee, args === null ? 'NewCallee' : 'MemberOnly', context);
    else if (this.mends) made = paren(this.inside(callee, context));
    else {
      if (this.minified) this.fault('level', 'New without arguments as Member, minified');
      made = this.inside(callee, context);
    }
    return { ...part, callee: made, args: args && this.arguments(args, context) };
  },

  chain(part, context) {
    const { optional, base } = part, inner = held(base), head = tag(base) === 'Member' ? inner.obj : inner.callee;
    if (inner.type_args) this.scope('type arguments');
    if (!optional && !isChain(head)) this.fault('grammar', 'link of no chain');
    const goal = optional ? 'ChainBase' : isChain(head) ? 'ChainLink' : 'Callee';
    if (tag(base) === 'Member') return { ...part, base: { Member: this.member(inner, goal, context) } };
    return { ...part, base: { Call: { ...inner, callee: this.expr(inner.callee, goal, context), args: this.arguments(inner.args, context) } } };
  },

  template(part, context) {
    return { ...part, exprs: part.exprs.map((each) => this.expr(each, 'Expression', context)) };
  },

  propName(name, context) {
    if (isUnspelled(name)) this.fault('grammar', 'a number that no literal is');
    if (!name.Computed) return name;
    return { Computed: { ...name.Computed, expr: this.expr(name.Computed.expr, 'Assignment', { ...context, in: true }) } };
  },

  property(prop, context) {
    if (prop.Spread) return { Spread: this.argument(prop.Spread, context) };
    const kind = tag(prop.Prop);
    return { Prop: { [kind]: PROPERTIES[kind](this, prop.Prop[kind], context) } };
  },

  // The context of a body of its own, as a getter's.
  plain(context) {
    return { ...context, in: true, yield: false, await: false, return: true, bars: true };
  },

  // Functions' parameters and bodies are those of functions.js.
  arrow(part, context) {
    const { params, body, is_async, is_generator } = part;
    if (part.type_params || part.return_type) this.scope('types of a function');
    if (is_generator) this.fault('grammar', 'arrow generator');
    // (15.9: [~Yield, +Await], which [?Yield, ?Await] covers)
    const own = { ...context, in: true, await: is_async || context.await, bars: true };
    const inner = { ...context, yield: false, await: is_async, bars: false };
    const made = body.BlockStmt
      ? { BlockStmt: this.functionBody(body.BlockStmt, inner) }
      : { Expr: this.exprNot(body.Expr, 'Assignment', inner, BEGINNINGS.arrowBody, 'the body of an arrow') };
    return { ...part, params: params.map((each, at) => this.parameter(each, own, at === params.length - 1)), body: made };
  },
};

module.exports = expressions;
