'use strict';
// Types, their parameters and their arguments.
const dice = require('./dice.js');
const { options, below, chance, pick, odd, span, few } = dice;

const KEYWORDS = ['Any', 'Unknown', 'Number', 'Object', 'Boolean', 'BigInt', 'String', 'Symbol', 'Void', 'Undefined', 'Null', 'Never'];
const PARTS = ['', 'a', ' b ', '\\n', '$', '{', "'"];
const ALONE = { is_in: false, is_out: false, is_const: false, constraint: null, default: null };
const SIGNS = ['True', 'Plus', 'Minus'];
// How tightly a type holds together; what is not here holds as tightly as a name.
const LEVELS = { TsConditionalType: 0, TsFnOrConstructorType: 0, TsTypePredicate: 0, TsUnionOrIntersectionType: 1, TsInferType: 3, TsTypeOperator: 3 };

// (Babel reads `-1[]` as an expression)
function levelOf(type) {
  const [[kind, node]] = Object.entries(type);
  if (kind === 'TsLitType' && node.lit.Number && node.lit.Number.value.Finite.negative) return 3;
  return kind === 'TsUnionOrIntersectionType' && node.TsIntersectionType ? 2 : LEVELS[kind] === undefined ? 4 : LEVELS[kind];
}

const paren = (type) => ({ TsParenthesizedType: { span: span(), type_ann: type } });

const types = {
  // A type that holds together as tightly as its place asks for; some don't, where nothing has to be read.
  type(level = 0) {
    dice.left--;
    const type = dice.left > 0 ? this.anyType() : this.shortType();
    return levelOf(type) < level && (options.plain || chance(0.7)) ? paren(type) : type;
  },

  shortType() {
    switch (below(5)) {
      case 0: return { TsKeywordType: { span: span(), kind: `Ts${pick(!options.plain && chance(0.1) ? ['Intrinsic'] : KEYWORDS)}Keyword` } };
      case 1: return chance(0.3) ? { TsThisType: { span: span() } } : this.literalType();
      default: return { TsTypeRef: { span: span(), type_name: this.entity(), type_params: null } };
    }
  },

  anyType() {
    switch (below(20)) {
      case 0: return { TsTypeRef: { span: span(), type_name: this.entity(), type_params: this.typeArguments(1) } };
      case 1: return { TsTypeQuery: this.query() };
      case 2: return { TsTypeLit: { span: span(), members: few(() => this.member()) } };
      case 3: return { TsArrayType: { span: span(), elem_type: this.type(4) } };
      case 4: return { TsTupleType: { span: span(), elem_types: this.tuple() } };
      case 5: return this.union();
      case 6: return this.intersection();
      case 7: return this.conditional();
      case 8: return paren(this.type());
      case 9: return this.operatorType();
      case 10: return { TsIndexedAccessType: { span: span(), obj_type: this.type(4), index_type: this.type() } };
      case 11: return { TsMappedType: this.mapped() };
      case 12: return this.literalType();
      case 13: return { TsImportType: this.importType() };
      case 14: return { TsFnOrConstructorType: { TsFnType: this.functionType() } };
      case 15: return { TsFnOrConstructorType: { TsConstructorType: { ...this.functionType(), is_abstract: chance(0.3) } } };
      case 16: return options.plain ? this.shortType() : this.unplaced();
      default: return this.shortType();
    }
  },

  // What has its place in another type, or before a result, elsewhere.
  unplaced() {
    switch (below(4)) {
      case 0: return { TsOptionalType: { span: span(), type_ann: this.type() } };
      case 1: return { TsRestType: { span: span(), type_ann: this.type() } };
      case 2: return { TsInferType: { span: span(), type_param: this.typeParam() } };
      default: return { TsTypePredicate: this.predicate() };
    }
  },

  entity() {
    const name = chance(0.02) && !options.plain ? 'this' : undefined;
    return chance(0.75) ? { Ident: this.ident(name) } : { TsQualifiedName: { span: span(), left: this.entity(), right: this.word() } };
  },

  // The arguments of an import are read as its own.
  query() {
    if (chance(0.8)) return { span: span(), expr_name: { TsEntityName: this.entity() }, type_args: this.typeArguments(0.3) };
    return { span: span(), expr_name: { Import: this.importType() }, type_args: options.plain ? null : this.typeArguments(0.3) };
  },

  importType() {
    return { span: span(), arg: this.string(), qualifier: chance(0.5) ? this.entity() : null, type_args: this.typeArguments(0.3) };
  },

  // --- several in one

  union() {
    return { TsUnionOrIntersectionType: { TsUnionType: { span: span(), types: this.joined(2) } } };
  },

  intersection() {
    return { TsUnionOrIntersectionType: { TsIntersectionType: { span: span(), types: this.joined(3) } } };
  },

  joined(level) {
    const many = odd() ? 0 : pick(options.plain ? [2, 3] : [1, 2, 2, 3]);
    return Array.from({ length: many }, () => this.type(level));
  },

  tuple() {
    const areNamed = chance(0.3);
    return this.listed(areNamed ? 'namedElement' : 'tupleElement');
  },

  namedElement(isLast) {
    const id = { id: { ...this.ident(), optional: false }, type_ann: null };
    if (isLast && chance(0.3)) return { span: span(), label: { Rest: { span: span(), dot3_token: span(), arg: { Ident: id }, type_ann: null } }, ty: this.type() };
    if (!options.plain && chance(0.1)) return { span: span(), label: this.pattern(), ty: this.type() };
    id.id.optional = isLast && chance(0.3);
    return { span: span(), label: { Ident: id }, ty: this.type() };
  },

  tupleElement(isLast) {
    const kind = isLast ? below(4) : 3;
    if (kind === 0) return { span: span(), label: null, ty: { TsOptionalType: { span: span(), type_ann: this.type(3) } } };
    if (kind === 1) return { span: span(), label: null, ty: { TsRestType: { span: span(), type_ann: this.type() } } };
    return { span: span(), label: null, ty: this.type() };
  },

  conditional() {
    const bound = chance(0.3) ? { TsInferType: { span: span(), type_param: { ...this.typeParam(), ...ALONE } } } : this.type(1);
    return { TsConditionalType: { span: span(), check_type: this.type(1), extends_type: bound, true_type: this.type(), false_type: this.type() } };
  },

  operatorType() {
    const op = pick(['KeyOf', 'Unique', 'ReadOnly']);
    const type = op === 'ReadOnly' && options.plain ? { TsArrayType: { span: span(), elem_type: this.type(4) } } : this.type(3);
    return { TsTypeOperator: { span: span(), op, type_ann: type } };
  },

  mapped() {
    const { name, constraint } = this.typeParam(1);
    const marks = odd() ? { is_in: true, is_out: chance(0.5), is_const: chance(0.5) } : { is_in: false, is_out: false, is_const: false };
    const param = { span: span(), name, ...marks, constraint, default: !options.plain && chance(0.05) ? this.type() : null };
    const parts = { readonly: chance(0.4) ? pick(SIGNS) : null, type_param: param, name_type: chance(0.3) ? this.type() : null };
    return { span: span(), ...parts, optional: chance(0.4) ? pick(SIGNS) : null, type_ann: chance(0.85) ? this.type() : null };
  },

  literalType() {
    switch (below(5)) {
      case 0: return { TsLitType: { span: span(), lit: { Number: this.number() } } };
      case 1: return { TsLitType: { span: span(), lit: { Bool: this.bool() } } };
      case 2: return { TsLitType: { span: span(), lit: { BigInt: this.bigInteger() } } };
      case 3: return { TsLitType: { span: span(), lit: { Tpl: this.templateType() } } };
      default: return { TsLitType: { span: span(), lit: { Str: this.string() } } };
    }
  },

  templateType() {
    const held = few(() => this.type()), parts = options.plain ? PARTS : [...PARTS, 'é'];
    const quasis = Array.from({ length: held.length + 1 }, () => ({ span: span(), raw: pick(parts) }));
    return { span: span(), types: held, quasis };
  },

  // --- functions

  functionType() {
    dice.left--;
    return { span: span(), params: this.listed('signatureParam'), type_params: this.typeParams(0.3), type_ann: this.result() };
  },

  result(mayTell = true) {
    const type = mayTell && chance(0.2) ? { TsTypePredicate: this.predicate() } : this.type();
    return { span: span(), type_ann: type };
  },

  // The result of an arrow function: in parentheses `A` of `(a): (A) => b` is read as a parameter.
  arrowResult(mayTell) {
    let { type_ann } = this.result(mayTell);
    while (options.plain && type_ann.TsParenthesizedType) type_ann = type_ann.TsParenthesizedType.type_ann;
    return { span: span(), type_ann };
  },

  predicate() {
    const asserts = chance(0.4), name = chance(0.3) ? { TsThisType: { span: span() } } : { Ident: { ...this.ident(), optional: false } };
    const hasType = !asserts || chance(0.6);
    return { span: span(), asserts, param_name: name, type_ann: hasType ? { span: span(), type_ann: this.type() } : null };
  },

  // --- what types add to others

  annotation(parts) {
    return chance(parts) && dice.left > 0 ? { span: span(), type_ann: this.type() } : null;
  },

  // A type of one of these words.
  keyword: (...kinds) => ({ span: span(), type_ann: { TsKeywordType: { span: span(), kind: pick(kinds) } } }),

  typeArguments(parts) {
    if (dice.left <= 0 || !chance(parts)) return null;
    return { span: span(), params: odd() ? [] : Array.from({ length: pick([1, 1, 2]) }, () => this.type()) };
  },

  // `in` and `out` stand where they are asked for, or anywhere where nothing has to be read.
  typeParam(constrained = 0.4, hasVariance = !options.plain) {
    const name = options.plain ? this.fresh() : this.ident();
    const marks = { is_in: hasVariance && chance(0.15), is_out: hasVariance && chance(0.15), is_const: !options.plain && chance(0.15) };
    return { span: span(), name, ...marks, constraint: chance(constrained) ? this.type() : null, default: chance(0.2) ? this.type() : null };
  },

  typeParams(parts, hasVariance) {
    if (dice.left <= 0 || !chance(parts)) return null;
    const many = odd() ? 0 : pick([1, 1, 2]);
    return { span: span(), params: Array.from({ length: many }, () => this.typeParam(0.4, hasVariance)) };
  },
};

module.exports = types;
