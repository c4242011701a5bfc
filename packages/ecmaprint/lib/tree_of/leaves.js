'use strict';
// Names, literals and names of properties.
const { quoted } = require('./json_text.js');
const { numberOf, bigIntegerOf, SHORT_INTEGER } = require('./numbers.js');

// What a tree takes for the surrogate itself.
const SPELLED_SURROGATE = /\\u(?:d[89a-f][0-9a-f]{2}|\{d[89a-f][0-9a-f]{2}\})/i;

const SPELLED_NAME = /(?:\\u\{[0-9a-fA-F]+\}|\\u[0-9a-fA-F]{4}|[$_\u200c\u200d\p{ID_Continue}])+/uy;

// Where a name ends that begins here: Babel's node goes on to its type and its `?`.
function endOfName(tree, name, start) {
  if (tree.text.startsWith(name, start)) return start + name.length;
  SPELLED_NAME.lastIndex = start;
  const found = SPELLED_NAME.exec(tree.text);
  return found ? start + found[0].length : null;
}

const LITERALS = {
  StringLiteral: (tree, node) => tree.within('{"Str":', 'string', node),
  NumericLiteral: (tree, node) => tree.within('{"Num":', 'number', node),
  BigIntLiteral: (tree, node) => tree.within('{"BigInt":', 'bigInteger', node),
  BooleanLiteral: (tree, node) => tree.put(`{"Bool":${tree.boolean(node)}}`),
  NullLiteral: (tree, node) => tree.put(`{"Null":{${tree.only(node)}}}`),
  RegExpLiteral: (tree, node) => tree.put(`{"Regex":{"exp":${quoted(node.pattern)},"flags":${quoted(node.flags)}${tree.at(node)}}}`),
};

// A number's members: its value, and its raw, which may be null.
const numberText = ({ value, raw }, none) => JSON.stringify({ value, raw: raw === null ? none : raw }).slice(1, -1);

const leaves = {
  // What a method writes, as the one variant of an enum.
  within(begin, method, node) {
    this.put(begin);
    this[method](node);
    this.put('}');
  },

  nameSpan(name, start, end) {
    return this.between(start, endOfName(this, name, start) || end);
  },

  // A name with neither a type nor a `?`, behind its beginning.
  putNamed(begin, node) {
    if (node.typeAnnotation || node.optional || node.decorators) this.without(node, 'typeAnnotation', 'optional', 'decorators');
    this.put(begin);
    this.putText(node.name);
    this.putPlaced(this.span(node));
  },

  ident(node) {
    this.putNamed('{"sym":', node);
    this.putFlag(',"optional":', false);
    this.put('}');
  },

  identName(node) {
    this.putNamed('{"sym":', node);
    this.put('}');
  },

  privateName(node) {
    this.put('{"name":');
    this.putText(node.id.name);
    this.putEnd(node, '}');
  },

  // A name that is bound, with its type and its `?`.
  binding(node) {
    const span = node.typeAnnotation || node.optional ? this.nameSpan(node.name, node.start, node.end, node) : this.span(node);
    this.put('{"id":{"sym":');
    this.putText(node.name);
    this.putPlaced(span);
    this.putFlag(',"optional":', node.optional);
    this.put('}');
    this.optional(',"type_ann":', node.typeAnnotation, 'typeAnnotation');
    this.put('}');
  },

  string(node) {
    this.warnOfSurrogate(node, node.value);
    this.putString(node.value, this.spelled(node));
    this.putEnd(node, '}');
  },

  // A string that spells a surrogate's escape in plain characters has no form in the tree; a sum of two strings has: `("\\" + "ud800")`.
  sum(node) {
    const parts = [];
    let rest = node.value;
    for (let at = rest.search(SPELLED_SURROGATE); at >= 0; at = rest.search(SPELLED_SURROGATE)) {
      parts.push(rest.slice(0, at + 1));
      rest = rest.slice(at + 1);
    }
    const nowhere = this.placed(this.unplaced());
    const [first, ...others] = [...parts, rest].map((value) => `{"Lit":{"Str":{"value":${quoted(value)}${nowhere}${this.none(',"raw":')}}}}`);
    this.put(`{"expr":${others.reduce((left, right) => `{"Bin":{"op":"Add","left":${left},"right":${right}${nowhere}}}`, first)}${this.at(node)}}`);
  },

  // Its value and its raw are two strings then.
  warnOfSurrogate(node, value) {
    if (!SPELLED_SURROGATE.test(value)) return;
    this.warn(node.loc ? node.loc.start.line : null, 'this string spells a surrogate in plain characters, so ecmagen answers `not well-formed` without --any');
  },

  // The string of a directive: Babel's value of it is its spelling.
  directiveString(node) {
    const value = node.extra && node.extra.expressionValue !== undefined ? node.extra.expressionValue : node.value;
    this.warnOfSurrogate(node, value);
    this.putString(value, this.spelled(node));
    this.putEnd(node, '}');
  },

  // The beginning of a string: its value and its raw, which may be null.
  putString(value, raw) {
    this.put('{"value":');
    this.putText(value);
    if (raw === null) this.put(this.none(',"raw":'));
    else {
      this.put(',"raw":');
      this.putText(raw);
    }
  },

  boolean(node) {
    const value = this.flag('"value":', node.value), place = this.at(node);
    return `{${value === '' ? place.slice(1) : value + place}}`;
  },

  // A number by its spelling, or by nothing but its value; `double` is what an engine reads. With `isNegative` the sign is the number's own.
  numberAt(place, spelling, double, { isSpelled = true, isNegative = false } = {}) {
    if (this.isShort && isSpelled && !isNegative && SHORT_INTEGER.test(spelling)) {
      this.put('{"value":{"Finite":{"digits":"');
      this.put(spelling);
      this.put('","exponent":0}}');
      this.put(place);
      return this.put('}');
    }
    const { value, raw } = numberOf(spelling, double), none = this.isShort ? undefined : null;
    if (value.Finite) value.Finite.negative = isNegative || (this.isShort ? undefined : false);
    return this.put(`{${numberText({ value, raw: isSpelled && !isNegative ? raw : null }, none)}${place}}`);
  },

  number(node) {
    this.numberAt(this.at(node), this.spelled(node), node.value);
  },

  // A big integer by its spelling, and its raw, which may be null.
  bigIntegerAt(place, spelling, raw, isNegative = false) {
    const { radix, digits } = bigIntegerOf(spelling), rest = raw === null ? this.none(',"raw":') : `,"raw":${quoted(raw)}`;
    this.put(`{"radix":"${radix}","digits":"${digits}"${this.flag(',"negative":', isNegative)}${rest}${place}}`);
  },

  bigInteger(node) {
    const raw = this.spelled(node);
    this.bigIntegerAt(this.at(node), raw, raw);
  },

  // Whether a node is a literal, which is written then.
  literal(node) {
    const made = LITERALS[node.type];
    if (made === undefined) return false;
    if (this.splits && node.type === 'StringLiteral' && SPELLED_SURROGATE.test(node.value)) this.within('{"Paren":', 'sum', node);
    else {
      this.put('{"Lit":');
      made(this, node);
      this.put('}');
    }
    return true;
  },

  quasi(node) {
    if (node.value === null || typeof node.value !== 'object' || typeof node.value.raw !== 'string') this.refuse(node, 'a part of a template: its `value` has no `raw`');
    this.put('{"raw":');
    this.putText(node.value.raw);
    this.putEnd(node, '}');
  },

  template(node) {
    this.put('{"quasis":');
    this.listed(node.quasis, 'quasi');
    this.list(',"exprs":', node.expressions, 'expr');
    this.putEnd(node, '}');
  },

  // `[a]`, whose brackets stand behind `from`
  computedName(node, from) {
    const open = Math.max(this.before('[', node.start), from);
    this.put('{"Computed":{"expr":');
    this.expr(node);
    this.put(`${this.placed(this.between(open, this.behind(']', node.end)))}}}`);
  },

  propName(node, isComputed, from) {
    if (isComputed) return this.computedName(node, from);
    if (node.type === 'Identifier') {
      this.putNamed('{"Ident":{"sym":', node);
      return this.put('}}');
    }
    if (node.type === 'StringLiteral' && this.splits && SPELLED_SURROGATE.test(node.value)) {
      this.put('{"Computed":{"expr":{"Paren":');
      this.sum(node);
      return this.put(`}${this.placed(this.unplaced())}}}`);
    }
    if (node.type === 'StringLiteral') return this.within('{"Str":', 'string', node);
    if (node.type === 'NumericLiteral') return this.within('{"Num":', 'number', node);
    if (node.type === 'BigIntLiteral') return this.within('{"BigInt":', 'bigInteger', node);
    return this.refuse(node, 'a name of a property');
  },
};

module.exports = leaves;
