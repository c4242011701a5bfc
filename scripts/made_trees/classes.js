'use strict';
// Expressions of TypeScript, classes with all that it adds to them, and members of objects.
const dice = require('./dice.js');
const { options, below, chance, pick, span, few } = dice;

// What the class round here is, which some modifiers go by where all is to be read.
let around = { isAbstract: false, hasParent: false };

const paren = (expr) => ({ Paren: { span: span(), expr } });

const classes = {
  // --- expressions

  nonNull() {
    return { span: span(), expr: chance(0.7) ? this.named() : this.property() };
  },

  typed() {
    return { span: span(), expr: this.operand(), type_ann: this.type() };
  },

  instantiation() {
    return { span: span(), expr: this.named(), type_args: this.typeArguments(1) || { span: span(), params: [this.type()] } };
  },

  // Each in parentheses where it is to be read (Babel reads `<a>b` as an element).
  asserted() {
    const make = [
      () => ({ TsAs: this.typed() }), () => ({ TsSatisfies: this.typed() }), () => ({ TsConstAssertion: { span: span(), expr: this.operand() } }), () => ({ TsInstantiation: this.instantiation() }),
    ];
    const found = pick(options.plain ? make : [...make, () => ({ TsTypeAssertion: this.typed() })])();
    return options.plain || chance(0.5) ? paren(found) : found;
  },

  // What is assigned to.
  typedTarget() {
    if (options.plain || chance(0.4)) return { TsNonNull: this.nonNull() };
    return pick([() => ({ TsAs: this.typed() }), () => ({ TsSatisfies: this.typed() }), () => ({ TsTypeAssertion: this.typed() }), () => ({ TsInstantiation: this.instantiation() })])();
  },

  // --- members of objects

  objectMember() {
    const key = { Ident: this.word() };
    switch (below(4)) {
      case 0: return { Method: { key, function: this.function(!options.plain && chance(0.2)) } };
      case 1: return { Getter: { span: span(), key, type_ann: this.annotation(0.6), body: this.body() } };
      case 2: return { Setter: { span: span(), key, this_param: chance(0.2) ? this.this() : null, param: { Ident: this.typedName(false) }, body: this.body() } };
      default: return { KeyValue: { key, value: this.expression() } };
    }
  },

  this() {
    return { Ident: { id: this.ident('this', false), type_ann: this.annotation(0.8) } };
  },

  // --- classes

  class(mayBeAbstract = !options.plain) {
    dice.left--;
    const parent = chance(0.4) ? this.named() : null;
    const is_abstract = mayBeAbstract && chance(0.3), before = around;
    around = { isAbstract: is_abstract, hasParent: parent !== null };
    const body = few(() => this.classMember());
    around = before;
    const parts = { super_class: parent, super_type_params: parent ? this.typeArguments(0.6) : null, is_abstract, implements: chance(0.3) ? few(() => this.heritage()) : [] };
    return { span: span(), decorators: [], body, type_params: this.typeParams(0.4, true), ...parts };
  },

  accessibility: () => (chance(0.3) ? pick(['Public', 'Protected', 'Private']) : null),

  // Modifiers of a member that isn't private; what is abstract isn't static.
  modifiers(isPrivate) {
    const isFree = !options.plain;
    const is_abstract = (isFree || (around.isAbstract && !isPrivate)) && chance(0.3);
    const is_override = (isFree || around.hasParent) && chance(0.2);
    return { accessibility: isFree || !isPrivate ? this.accessibility() : null, is_static: (isFree || !is_abstract) && chance(0.2), is_abstract, is_override };
  },

  classMember() {
    dice.left--;
    switch (below(9)) {
      case 0: return { Constructor: { span: span(), accessibility: this.accessibility(), ...this.construct() } };
      case 1: case 2: return { ClassProp: this.field(false) };
      case 3: return { PrivateProp: this.field(true) };
      case 4: return { AutoAccessor: this.autoAccessor() };
      case 5: return { PrivateMethod: this.method(true) };
      case 6: return { TsIndexSignature: { ...this.indexSignature(), is_static: chance(0.2) } };
      default: return { Method: this.method(false) };
    }
  },

  privateName() {
    return { span: span(), name: this.fresh().sym };
  },

  // A field has a type where it is said to have a value, and no value then, and none where it is declared elsewhere or abstract.
  held(isAbstract, mayBeOptional) {
    const type_ann = this.annotation(0.7);
    const definite = type_ann !== null && !(isAbstract && options.plain) && this.mayHold() && chance(0.2);
    const mayHold = this.mayHold() && (!options.plain || !(definite || isAbstract));
    return { type_ann, definite, is_optional: mayBeOptional && !(definite && options.plain) && chance(0.2), value: mayHold && chance(0.4) ? this.operand() : null };
  },

  field(isPrivate) {
    const { is_abstract, ...modifiers } = this.modifiers(isPrivate);
    const declare = !isPrivate && !(options.plain && modifiers.is_override) && this.mayHold() && chance(0.1);
    const { type_ann, definite, is_optional, value } = this.held(is_abstract || declare, true);
    const known = { span: span(), decorators: [], type_ann, definite, is_optional, value, readonly: chance(0.3), ...modifiers };
    return isPrivate ? { ...known, key: this.privateName() } : { ...known, key: { Ident: this.word() }, is_abstract, declare };
  },

  autoAccessor() {
    const isPrivate = chance(0.3), modifiers = this.modifiers(isPrivate);
    const { type_ann, definite, value } = this.held(modifiers.is_abstract, false);
    return { span: span(), decorators: [], key: isPrivate ? { Private: this.privateName() } : { Public: { Ident: this.word() } }, type_ann, definite, value, ...modifiers };
  },

  // A method, a getter or a setter; what is abstract has no body where it is to be read.
  method(isPrivate) {
    const modifiers = this.modifiers(isPrivate), kind = pick(['Method', 'Method', 'Method', 'Getter', 'Setter']);
    const made = kind === 'Method' ? this.function(modifiers.is_abstract || chance(isPrivate && options.plain ? 0 : 0.2)) : this.accessor(kind === 'Getter');
    const body = modifiers.is_abstract && options.plain ? null : made.body;
    const is_optional = (kind === 'Method' && !isPrivate || !options.plain) && chance(0.1);
    return { span: span(), key: isPrivate ? this.privateName() : { Ident: this.word() }, function: { ...made, body }, kind, is_optional, ...modifiers };
  },

  accessor(isGetter) {
    const params = isGetter ? [] : [{ span: span(), decorators: [], pat: { Ident: this.typedName(false) } }];
    const plain = { span: span(), params, decorators: [], body: this.body(), is_generator: false, is_async: false };
    return { ...plain, type_params: null, return_type: isGetter && chance(0.5) ? this.result() : null };
  },

  construct() {
    const { params, body } = this.function(chance(0.2));
    return { params: params.map((param) => (chance(0.4) && (param.pat.Ident || (param.pat.Assign && param.pat.Assign.left.Ident)) ? { TsParamProp: this.paramProp(param.pat) } : { Param: param })), body };
  },

  // A parameter that is a field too, so it has one of its words.
  paramProp(param) {
    const accessibility = this.accessibility(), is_override = (!options.plain || around.hasParent) && chance(0.2);
    return { span: span(), decorators: [], accessibility, is_override, readonly: !(accessibility || is_override) || chance(0.3), param };
  },
};

module.exports = classes;
