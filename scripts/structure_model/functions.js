'use strict';
// Functions and classes, ECMA-262 15.
const { tag, paren, valueOf } = require('./nodes.js');

const MARKS = ['accessibility', 'is_abstract', 'is_optional', 'is_override', 'readonly', 'declare', 'definite', 'type_ann'];

const isConstructorName = (key) => (key.Ident && valueOf(key.Ident.sym) === 'constructor') || (key.Str && key.Str.value === 'constructor');
const isPath = (node) => !!node.Ident || (!!node.Member && !node.Member.prop.Computed && isPath(node.Member.obj));
const isDecorator = (node) => !!node.Paren || isPath(node) || !!(node.Call && node.Call.callee.Expr && isPath(node.Call.callee.Expr));

const MEMBERS = {
  Constructor: (walk, part, context) => walk.classConstructor(part, context),
  Method: (walk, part, context) => walk.method(part, context, false),
  PrivateMethod: (walk, part, context) => walk.method(part, context, true),
  ClassProp: (walk, part, context) => {
    if (isConstructorName(part.key)) walk.fault('grammar', 'field of the name constructor');
    return { ...walk.field(part, context), key: walk.propName(part.key, context) };
  },
  PrivateProp: (walk, part, context) => walk.field(part, context),
  AutoAccessor: (walk, part, context) => {
    if (part.key.Public && isConstructorName(part.key.Public)) walk.fault('grammar', 'field of the name constructor');
    return { ...walk.field(part, context), key: part.key.Public ? { Public: walk.propName(part.key.Public, context) } : part.key };
  },
  StaticBlock: (walk, part, context) => ({
    ...part, body: walk.block(part.body, { ...context, yield: false, await: true, return: walk.returnsAnywhere, bars: true }),
  }),
  Empty: (walk, part) => part,
};

const functions = {
  parameter(pat, context, mayRest) {
    return pat.Rest ? this.rest(pat, context, false, mayRest) : this.withDefault(pat, context, false);
  },

  // Parameters, each with its pattern.
  parameters(params, context) {
    return params.map((each, at) => ({ ...each, pat: this.parameter(each.pat, context, at === params.length - 1) }));
  },

  function(part, context) {
    const own = { ...context, in: true, yield: part.is_generator, await: part.is_async, return: true, bars: true };
    if (part.type_params || part.return_type || !part.body) this.scope('types of a function');
    if (part.params.some(({ decorators }) => decorators.length)) this.scope('decorators of parameters');
    return { ...part, params: this.parameters(part.params, own), body: part.body && this.functionBody(part.body, own) };
  },

  functionBody(block, context) {
    return this.block(block, { ...context, in: true, return: true, bars: false });
  },

  class(part, outside) {
    const context = { ...outside, in: true, strict: true };
    if (part.is_abstract || part.type_params || part.super_type_params || part.implements.length) this.scope('types of a class');
    return {
      ...part, decorators: this.decorators(part.decorators, outside), super_class: this.optionalExpr(part.super_class, 'LeftHandSide', context),
      body: part.body.map((each) => this.classMember(each, context)),
    };
  },

  decorators(list, context) {
    return list.map((each) => {
      const isOne = isDecorator(each.expr);
      if (!isOne && !this.mends) this.fault('level', 'decorator');
      const expr = this.inside(each.expr, { ...context, in: true });
      return { ...each, expr: isOne || !this.mends ? expr : paren(expr) };
    });
  },

  classMember(member, context) {
    const kind = tag(member), made = MEMBERS[kind];
    if (made) return { [kind]: made(this, member[kind], context) };
    this.scope(kind);
    return member;
  },

  classConstructor(part, context) {
    const isTyped = part.accessibility || !part.body || part.params.some(({ TsParamProp, Param }) => TsParamProp || Param.decorators.length);
    if (isTyped) {
      this.scope('constructor');
      return part;
    }
    const own = this.plain(context), params = this.parameters(part.params.map(({ Param }) => Param), own);
    return { ...part, params: params.map((Param) => ({ Param })), body: this.functionBody(part.body, own) };
  },

  checkMarks(part) {
    if (MARKS.some((mark) => part[mark])) this.scope('modifiers');
  },

  method(part, context, isPrivate) {
    const { params } = part.function;
    this.checkMarks(part);
    if (!isPrivate && !part.is_static && isConstructorName(part.key)) this.fault('grammar', 'method of the name constructor');
    if (part.kind === 'Getter' && params.length !== 0) this.fault('grammar', 'parameters of a getter');
    if (part.kind === 'Setter' && (params.length !== 1 || params[0].pat.Rest)) this.fault('grammar', 'parameters of a setter');
    const made = { ...this.function(part.function, context), decorators: this.decorators(part.function.decorators, context) };
    return { ...part, key: isPrivate ? part.key : this.propName(part.key, context), function: made };
  },

  field(part, context) {
    this.checkMarks(part);
    const value = this.optionalExpr(part.value, 'Assignment', { ...context, yield: false, await: false, bars: false });
    return { ...part, decorators: this.decorators(part.decorators, context), value };
  },
};

module.exports = functions;
