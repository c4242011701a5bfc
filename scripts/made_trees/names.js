'use strict';
// Names, literals and patterns of TypeScript.
const dice = require('./dice.js');
const { options, below, chance, pick, odd, span, few } = dice;

const NAMES = ['a', 'b', 'A', 'Foo', 'x1', '$', '_', 'é', '名'];
// words that are names elsewhere
const WORDS = [
  'any', 'string', 'never', 'intrinsic', 'undefined', 'type', 'of', 'async', 'declare', 'namespace', 'module', 'global', 'abstract', 'readonly', 'keyof', 'unique',
  'infer', 'is', 'asserts', 'require', 'static', 'get', 'set', 'out', 'as', 'from',
];
const ODD_NAMES = ['a b', '1', '-', '#a', '\\\0ud83d', '\u{1d4ab}', ''];
const TEXTS = ['a', "it's", '"q"', '', 'é', '\u{1F600}', 'a\nb', '</script>', 'use strict'];

let count = 0;

const names = {
  spelled() {
    if (odd()) return pick(ODD_NAMES);
    return pick(!options.plain && chance(0.2) ? WORDS : NAMES);
  },

  ident: (sym = names.spelled(), optional = !options.plain && chance(0.02)) => ({ span: span(), sym, optional }),
  word: () => ({ span: span(), sym: names.spelled() }),
  named: (sym = names.spelled()) => ({ Ident: { span: span(), sym, optional: false } }),

  // A name of its own: no two declarations are of one, where all is to be read.
  fresh: () => names.ident(options.plain ? `n${count++}` : names.spelled()),

  string() {
    const value = pick(TEXTS);
    return { span: span(), value, raw: chance(0.5) ? JSON.stringify(value) : null };
  },

  number() {
    const [digits, exponent, raw] = pick([['1', 0, '1'], ['15', -1, '1.5'], ['25', 0, null], ['15', -1, null], ['1', 3, '1000']]);
    return { span: span(), value: { Finite: { negative: raw === null && chance(0.3), digits, exponent } }, raw };
  },

  bigInteger: () => ({ span: span(), negative: false, radix: 'Decimal', digits: '5', raw: '5n' }),
  bool: () => ({ span: span(), value: chance(0.5) }),

  // --- patterns

  // `a?: A`
  typedName(mayBeOptional) {
    return { id: { ...this.fresh(), optional: mayBeOptional && chance(0.2) }, type_ann: this.annotation(0.6) };
  },

  patternElement() {
    if (!options.plain && chance(0.1)) return null;
    return chance(0.7) ? { Ident: { id: this.fresh(), type_ann: null } } : this.pattern(false);
  },

  arrayPattern(isTyped, mayBeOptional) {
    dice.left--;
    return { span: span(), elems: few(() => this.patternElement()), optional: mayBeOptional && chance(0.2), type_ann: isTyped ? this.annotation(0.6) : null };
  },

  // (Babel reads no JSX in types, where patterns stand too)
  patternProperty() {
    const isTyped = !options.plain && chance(0.1);
    switch (below(4)) {
      case 0: return { KeyValue: { key: { Ident: this.word() }, value: this.patternElement() || { Ident: this.typedName(false) } } };
      case 1: return { Assign: { span: span(), key: { id: this.fresh(), type_ann: null }, value: options.plain ? this.named() : this.operand() } };
      default: return { Assign: { span: span(), key: { id: this.fresh(), type_ann: isTyped ? this.annotation(1) : null }, value: null } };
    }
  },

  objectPattern(isTyped, mayBeOptional) {
    dice.left--;
    return { span: span(), props: few(() => this.patternProperty()), optional: mayBeOptional && chance(0.2), type_ann: isTyped ? this.annotation(0.6) : null };
  },

  // Types stand within others only where nothing has to be read.
  pattern(isTyped = true) {
    const typed = isTyped || (!options.plain && chance(0.2));
    return chance(0.5) ? { Array: this.arrayPattern(typed, !options.plain) } : { Object: this.objectPattern(typed, !options.plain) };
  },

  rest(isTyped = true) {
    return { span: span(), dot3_token: span(), arg: { Ident: { id: this.fresh(), type_ann: null } }, type_ann: isTyped ? this.annotation(0.6) : null };
  },

  // A parameter of a function.
  param(isLast) {
    dice.left--;
    switch (below(6)) {
      case 0: return this.pattern();
      case 1: return { Assign: { span: span(), left: chance(0.7) ? { Ident: this.typedName(!options.plain) } : this.pattern(), right: this.operand() } };
      case 2: return isLast || !options.plain ? { Rest: this.rest() } : { Ident: this.typedName(true) };
      default: return { Ident: this.typedName(true) };
    }
  },

  // A parameter of a type is no assignment.
  signatureParam(isLast) {
    dice.left--;
    switch (below(7)) {
      case 0: return { Array: this.arrayPattern(true, true) };
      case 1: return { Object: this.objectPattern(true, true) };
      case 2: return isLast || !options.plain ? { Rest: this.rest() } : { Ident: this.typedName(true) };
      default: return { Ident: this.typedName(true) };
    }
  },

  // Some of these, of which the last one knows it.
  listed(method) {
    const many = dice.left > 0 ? pick([0, 1, 1, 2]) : 0;
    return Array.from({ length: many }, (_, at) => this[method](at === many - 1));
  },
};

module.exports = names;
