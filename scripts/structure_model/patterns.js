'use strict';
// Targets of assignments and patterns, ECMA-262 8.6.4, 13.15 and 14.3.3.
const { tag, valueOf } = require('./nodes.js');

const patterns = {
  // Whether AssignmentTargetType is simple.
  isSimple(node, context) {
    const kind = tag(node);
    if (kind === 'Ident') return !(context.strict && ['eval', 'arguments'].includes(valueOf(node.Ident.sym)));
    return kind === 'Member' || kind === 'SuperProp' || (kind === 'Paren' && this.isSimple(node.Paren.expr, context));
  },

  target(target, op, context) {
    if (target.Pat) {
      if (op !== 'Assign') this.fault('grammar', 'pattern of a compound assignment');
      return { Pat: this.pattern(target.Pat, context, true) };
    }
    const { Simple: simple } = target, kind = tag(simple);
    if (kind === 'Ident') {
      if (simple.Ident.type_ann) this.scope('type');
      this.bound(simple.Ident.id, context);
      return target;
    }
    if (!['Member', 'SuperProp', 'Paren', 'OptChain'].includes(kind)) {
      this.scope(`target ${kind}`);
      return target;
    }
    if (kind === 'Paren' && !this.isSimple(simple, context)) this.fault('grammar', 'target in parentheses');
    if (kind === 'OptChain') this.fault('grammar', 'optional chain as a target');
    return { Simple: this.expr(simple, 'LeftHandSide', context) };
  },

  // A pattern of an assignment, or else of a binding.
  pattern(pat, context, assigns) {
    const within = { ...context, in: true }, kind = tag(pat), part = pat[kind];
    if (part.type_ann || part.optional) this.scope('type of a pattern');
    switch (kind) {
      case 'Ident': this.bound(part.id, context); return pat;
      case 'Array': return { Array: { ...part, elems: part.elems.map((each, at) => each && this.element(each, within, assigns, at === part.elems.length - 1)) } };
      case 'Object': return { Object: { ...part, props: part.props.map((each, at) => this.patProp(each, within, assigns, at === part.props.length - 1)) } };
      case 'Expr': return this.patExpr(pat, within, assigns);
      default: this.fault('grammar', `pattern ${kind} out of its place`); return pat;
    }
  },

  patExpr(pat, context, assigns) {
    if (!assigns) {
      this.fault('grammar', 'an expression in a binding');
      return pat;
    }
    this.checkTarget(pat.Expr, context);
    return { Expr: this.expr(pat.Expr, 'LeftHandSide', context) };
  },

  // An expression that stands as a pattern: a name is a pattern by itself.
  checkTarget(node, context) {
    if (node.Ident) this.fault('grammar', 'a name as an expression of a pattern');
    else if (!this.isSimple(node, context)) this.fault('grammar', 'a target that is none');
  },

  // `...a`, which stands last.
  rest(pat, context, assigns, isLast) {
    if (!isLast) this.fault('grammar', 'rest that is not last');
    if (pat.Rest.type_ann) this.scope('type');
    return { Rest: { ...pat.Rest, arg: this.pattern(pat.Rest.arg, context, assigns) } };
  },

  element(pat, context, assigns, isLast) {
    return pat.Rest ? this.rest(pat, context, assigns, isLast) : this.withDefault(pat, context, assigns);
  },

  withDefault(pat, context, assigns) {
    if (!pat.Assign) return this.pattern(pat, context, assigns);
    const { left, right } = pat.Assign;
    return { Assign: { ...pat.Assign, left: this.pattern(left, context, assigns), right: this.expr(right, 'Assignment', { ...context, in: true }) } };
  },

  patProp(prop, context, assigns, isLast) {
    if (prop.Rest) {
      if (!prop.Rest.arg.Ident && !(assigns && prop.Rest.arg.Expr)) this.fault('grammar', 'pattern behind ... in an object');
      return this.rest(prop, context, assigns, isLast);
    }
    if (prop.KeyValue) {
      const { key, value } = prop.KeyValue;
      return { KeyValue: { key: this.propName(key, context), value: this.withDefault(value, context, assigns) } };
    }
    const { key, value } = prop.Assign;
    if (key.type_ann) this.scope('type');
    this.bound(key.id, context);
    return { Assign: { ...prop.Assign, value: this.optionalExpr(value, 'Assignment', { ...context, in: true }) } };
  },
};

module.exports = patterns;
