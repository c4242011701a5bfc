'use strict';
// Members of types, and declarations of TypeScript.
const dice = require('./dice.js');
const { options, below, chance, pick, odd, span, few } = dice;

let isAmbient = false; // whether all round here is declared elsewhere, so that nothing has a value or a body

// What is made in there.
function ambient(make) {
  const before = isAmbient;
  isAmbient = true;
  const made = make();
  isAmbient = before;
  return made;
}

const members = {
  // Nothing is initialized, and no function has a body, where all is declared elsewhere and is to be read.
  mayHold: () => !(options.plain && isAmbient),

  // --- members of types

  member() {
    dice.left--;
    switch (below(8)) {
      case 0: return { TsCallSignatureDecl: this.signature() };
      case 1: return { TsConstructSignatureDecl: this.signature() };
      case 2: return { TsMethodSignature: { ...this.key(), optional: chance(0.3), ...this.signature() } };
      case 3: return { TsGetterSignature: { span: span(), ...this.key(), type_ann: this.annotation(0.7) } };
      case 4: return { TsSetterSignature: { span: span(), ...this.key(), param: options.plain ? { Ident: this.typedName(false) } : this.signatureParam(true) } };
      case 5: return { TsIndexSignature: this.indexSignature() };
      default: return { TsPropertySignature: { span: span(), readonly: chance(0.3), ...this.key(), optional: chance(0.3), type_ann: this.annotation(0.7) } };
    }
  },

  // (Babel reads no JSX in types)
  key() {
    if (chance(0.2)) return { key: options.plain ? this.named() : this.operand(), computed: true };
    if (odd()) return { key: this.operand(), computed: false };
    const one = { span: span(), value: { Finite: { negative: false, digits: '1', exponent: 0 } }, raw: '1' };
    switch (below(4)) {
      case 0: return { key: { Lit: { Str: this.string() } }, computed: false };
      case 1: return { key: { Lit: { Num: one } }, computed: false };
      default: return { key: this.named(), computed: false };
    }
  },

  signature() {
    const type_ann = chance(0.7) ? this.result() : null;
    return { span: span(), params: this.listed('signatureParam'), type_ann, type_params: this.typeParams(0.3) };
  },

  indexSignature() {
    const name = { id: this.ident(), type_ann: this.keyword('TsStringKeyword', 'TsNumberKeyword') };
    const params = options.plain || chance(0.7) ? [{ Ident: name }] : this.listed('signatureParam');
    return { span: span(), params, type_ann: this.annotation(0.8), readonly: chance(0.3), is_static: !options.plain && chance(0.2) };
  },

  // --- interfaces, aliases and enums

  heritage() {
    const member = { Member: { span: span(), obj: this.named(), prop: { Ident: this.word() } } };
    const expr = !options.plain && chance(0.1) ? this.operand() : chance(0.7) ? this.named() : member;
    return { span: span(), expr, type_args: this.typeArguments(0.5) };
  },

  interface(declare) {
    const parts = { type_params: this.typeParams(0.4, true), extends: few(() => this.heritage()) };
    return { span: span(), id: this.fresh(), declare, ...parts, body: { span: span(), body: few(() => this.member()) } };
  },

  alias(declare) {
    return { span: span(), declare, id: this.fresh(), type_params: this.typeParams(0.4, true), type_ann: this.type() };
  },

  enum(declare) {
    const init = () => (chance(0.4) ? (this.mayHold() ? this.operand() : this.named()) : null);
    const member = () => ({ span: span(), id: chance(0.7) ? { Ident: this.fresh() } : { Str: this.string() }, init: init() });
    return { span: span(), declare, is_const: chance(0.3), id: this.fresh(), members: few(member) };
  },

  // --- namespaces

  // All of `declare module "a"` is declared elsewhere; a name in dots has no `declare` of its own. What is global isn't exported.
  namespace(declare, isExported) {
    dice.left--;
    const isGlobal = declare && !(isExported && options.plain) && chance(0.2);
    const isNamed = !isGlobal && ((options.plain && !declare) || chance(0.7));
    const id = isGlobal ? { Ident: this.ident('global', false) } : isNamed ? { Ident: this.fresh() } : { Str: this.string() };
    const make = () => (isNamed && chance(0.4) ? this.dotted() : { TsModuleBlock: this.moduleBlock() });
    const isBare = isNamed || isGlobal ? !options.plain && chance(0.2) : chance(0.3);
    return { span: span(), declare, global: isGlobal, id, body: isBare ? null : declare ? ambient(make) : make() };
  },

  dotted() {
    const body = chance(0.3) ? this.dotted() : { TsModuleBlock: this.moduleBlock() };
    return { TsNamespaceDecl: { span: span(), declare: odd(), id: this.fresh(), body } };
  },

  moduleBlock() {
    return { span: span(), body: few(() => this.inner()) };
  },

  // What stands in a namespace.
  inner() {
    dice.left--;
    if (chance(0.1)) return { ModuleDecl: { TsImportEquals: this.importEquals(chance(0.3), true) } };
    if (chance(0.3)) return { ModuleDecl: { ExportDecl: { span: span(), decl: this.declaration(true) } } };
    return { Stmt: this.mayHold() && chance(0.4) ? this.statement() : { Decl: this.declaration() } };
  },

  // In a namespace none is of another file.
  importEquals(isExport, isInner = false) {
    const isOutside = !(isInner && options.plain) && chance(0.5), is_type_only = (isOutside || !options.plain) && chance(0.2);
    const module_ref = isOutside ? { TsExternalModuleRef: { span: span(), expr: this.string() } } : { TsEntityName: this.entity() };
    return { span: span(), is_export: isExport, is_type_only, id: this.fresh(), module_ref };
  },

  // --- all declarations, some of what is declared elsewhere

  declaration(isExported = false) {
    dice.left--;
    const declare = !(options.plain && isAmbient) && chance(0.3);
    const make = () => this.declared(declare, isExported);
    return declare ? ambient(make) : make();
  },

  declared(declare, isExported) {
    switch (below(8)) {
      case 0: return { TsTypeAlias: this.alias(declare) };
      case 1: return { TsEnum: this.enum(declare) };
      case 2: return { TsModule: this.namespace(declare, isExported) };
      case 3: return { Class: { ident: this.fresh(), declare, class: this.class(true) } };
      case 4: return { Fn: { ident: this.fresh(), declare, function: this.function(chance(declare || isAmbient ? 0.8 : 0.2)) } };
      case 5: return { Var: this.variables(declare) };
      default: return { TsInterface: this.interface(declare) };
    }
  },

  variables(declare) {
    const kind = pick(['Var', 'Let', 'Const']);
    const declarator = () => {
      const isPattern = chance(0.2) && this.mayHold();
      const name = isPattern ? this.pattern() : { Ident: this.typedName(!options.plain && chance(0.1)) };
      const isInitialized = this.mayHold() && (kind === 'Const' || isPattern || chance(0.4));
      const isTyped = 'Ident' in name && name.Ident.type_ann !== null && !name.Ident.id.optional;
      const definite = (!options.plain || (isTyped && !isInitialized && kind !== 'Const' && !declare && this.mayHold())) && chance(0.2);
      return { span: span(), name, init: isInitialized ? this.expression() : null, definite };
    };
    return { span: span(), kind, declare, decls: [declarator(), ...(chance(0.2) ? [declarator()] : [])] };
  },
};

module.exports = members;
