'use strict';
// Scripts and modules, ECMA-262 16.
const { tag, held } = require('./nodes.js');
const { BEGINNINGS } = require('./edges.js');

const ITEMS = {
  Import: (walk, part, context) => {
    part.specifiers.forEach((each) => walk.bound(held(each).local, context));
    walk.attributes(part.with);
    return part;
  },
  ExportDecl: (walk, part, context) => {
    if (part.decl.Using) walk.fault('grammar', 'export using');
    return { ...part, decl: walk.decl(part.decl, context, true) };
  },
  ExportDefaultDecl: (walk, part, context) => ({ ...part, decl: walk.defaultDecl(part.decl, context) }),
  ExportDefaultExpr: (walk, part, context) => ({
    ...part, expr: walk.exprNot(part.expr, 'Assignment', { ...context, in: true }, BEGINNINGS.defaultExport, 'export default'),
  }),
  ExportNamed: (walk, part, context) => {
    if (part.specifiers.some(({ Namespace }) => Namespace) && (!part.src || part.specifiers.length !== 1)) walk.fault('grammar', 'export * as');
    if (!part.src) part.specifiers.forEach(({ Named }) => walk.declaredName(Named, context));
    walk.attributes(part.with);
    return part;
  },
  ExportAll: (walk, part) => { walk.attributes(part.with); return part; },
};

const modules = {
  moduleItem(item, context) {
    if (item.Stmt) return { Stmt: this.stmt(item.Stmt, context, true) };
    const kind = tag(item.ModuleDecl), part = item.ModuleDecl[kind], made = ITEMS[kind];
    if (part.type_only) this.scope('type');
    if (made) return { ModuleDecl: { [kind]: made(this, part, context) } };
    this.scope(kind);
    return item;
  },

  // `with { type: 'json' }` (16.2.2): names or strings, and strings.
  attributes(object) {
    const isOne = ({ Prop }) => !!Prop && !!Prop.KeyValue && !!(Prop.KeyValue.key.Ident || Prop.KeyValue.key.Str) && !!(Prop.KeyValue.value.Lit && Prop.KeyValue.value.Lit.Str);
    if (object && !object.props.every(isOne)) this.fault('grammar', 'an import attribute that is none');
  },

  // Without `from` a module exports names that it declares.
  declaredName(named, context) {
    if (!named) return;
    if (named.orig.Str) this.fault('grammar', 'a string as a declared name');
    else this.name(named.orig.Ident, context);
  },

  defaultDecl(decl, context) {
    const kind = tag(decl), part = decl[kind];
    if (kind !== 'Class' && kind !== 'Fn') {
      this.scope(kind);
      return decl;
    }
    this.bound(part.ident, context);
    return kind === 'Class' ? { Class: { ...part, class: this.class(part.class, context) } } : { Fn: { ...part, function: this.function(part.function, context) } };
  },

  program(program) {
    const all = { in: true, yield: false, await: false, return: this.returnsAnywhere, strict: false, bars: false };
    if (program.Script) return { Script: { ...program.Script, body: this.list(program.Script.body, { ...all, top: true }) } };
    const { body } = program.Module, context = { ...all, await: true, strict: true, module: true };
    body.forEach((each, at) => this.checkNext(each.Stmt, body[at + 1] && body[at + 1].Stmt));
    return { Module: { ...program.Module, body: body.map((each) => this.moduleItem(each, context)) } };
  },
};

module.exports = modules;
