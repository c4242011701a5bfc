'use strict';
// The JSON of a tree, as it is written: bytes of UTF-8 from the front, with members in any order. In the whole form each member is there; in
// the short form those are left out that have their default: null, false, an empty list, a span where nothing stands. A method whose name
// begins with `put` writes; `at`, `flag` and the like give a text to be written.
const { Source, wellFormed } = require('./source.js');

// A text as JSON has it.
const quoted = (text) => JSON.stringify(wellFormed(text));

const FIRST_SIZE = 1 << 16; // of a buffer, in bytes
const MOST_KEPT = 1 << 25; // of one that is kept for the next tree
const QUOTE = 0x22, BACKSLASH = 0x5c, ZERO = 0x30;

let spare = null;

class JsonText extends Source {
  constructor(text, options = {}) {
    super(text, options);
    this.isShort = !!options.isShort;
    this.bytes = spare === null ? Buffer.allocUnsafe(FIRST_SIZE) : spare;
    this.size = 0;
    spare = null;
  }

  // Gives the buffer to the next tree: what was written is of no more use.
  release() {
    if (this.bytes !== null && this.bytes.length <= MOST_KEPT) spare = this.bytes;
    this.bytes = null;
  }

  // Makes room for so many bytes more.
  reserve(size) {
    if (this.size + size <= this.bytes.length) return;
    const bytes = Buffer.allocUnsafe(2 * (this.size + size));
    this.bytes.copy(bytes, 0, 0, this.size);
    this.bytes = bytes;
  }

  put(text) {
    const { length } = text;
    this.reserve(length);
    const { bytes, size } = this;
    for (let at = 0; at < length; at++) {
      const unit = text.charCodeAt(at);
      if (unit > 0x7e) return this.putAny(text);
      bytes[size + at] = unit;
    }
    this.size = size + length;
    return undefined;
  }

  // The same of a text that is long, or isn't ASCII.
  putAny(text) {
    this.reserve(3 * text.length);
    this.size += this.bytes.utf8Write(text, this.size);
  }

  // Writes a text as a string of JSON.
  putText(text) {
    const { length } = text;
    this.reserve(2 * length + 2);
    const { bytes } = this;
    let size = this.size;
    bytes[size++] = QUOTE;
    for (let at = 0; at < length; at++) {
      const unit = text.charCodeAt(at);
      if (unit < 0x20 || unit > 0x7e) return this.putAny(quoted(text));
      if (unit === QUOTE || unit === BACKSLASH) bytes[size++] = BACKSLASH;
      bytes[size++] = unit;
    }
    bytes[size++] = QUOTE;
    this.size = size;
    return undefined;
  }

  // Writes a number of at most nine digits.
  putNumber(number) {
    this.reserve(9);
    let digits = 1;
    for (let rest = number; rest > 9; rest = (rest / 10) | 0) digits++;
    let rest = number;
    for (let at = this.size + digits - 1; at >= this.size; at--) {
      const shorter = (rest / 10) | 0;
      this.bytes[at] = ZERO + rest - 10 * shorter;
      rest = shorter;
    }
    this.size += digits;
  }

  // All that was written.
  written() {
    return this.bytes.utf8Slice(0, this.size);
  }

  // A member for a span, behind another member; and the first one of an object.
  placed(span) {
    return span === undefined ? '' : `,"span":{"lo":${span.lo},"hi":${span.hi}}`;
  }

  at(node) {
    return this.placed(this.span(node));
  }

  only(node) {
    return this.at(node).slice(1);
  }

  putPlaced(span) {
    if (span === undefined) return;
    this.put(',"span":{"lo":');
    this.putNumber(span.lo);
    this.put(',"hi":');
    this.putNumber(span.hi);
    this.put('}');
  }

  // The end of a node: where it stands, and braces.
  putEnd(node, braces) {
    this.putPlaced(this.span(node));
    this.put(braces);
  }

  // A member that is a token's span, by its beginning: `,"dot3_token":`.
  token(begin, span) {
    return span === undefined ? '' : `${begin}{"lo":${span.lo},"hi":${span.hi}}`;
  }

  // Members by their beginnings, as `,"declare":`: a mark, one that isn't set, and nothing in place of a part.
  flag(begin, value) {
    return value ? `${begin}true` : this.no(begin);
  }

  no(begin) {
    return this.isShort ? '' : `${begin}false`;
  }

  none(begin) {
    return this.isShort ? '' : `${begin}null`;
  }

  empty(begin) {
    return this.isShort ? '' : `${begin}[]`;
  }

  putFlag(begin, value) {
    if (value || !this.isShort) this.put(this.flag(begin, value));
  }

  // A part by a method, or nothing where there is none.
  optional(begin, node, method) {
    if (node === null || node === undefined) {
      if (!this.isShort) this.put(this.none(begin));
    } else {
      this.put(begin);
      this[method](node);
    }
  }

  // A list of parts, each by a method.
  list(begin, nodes, method) {
    if (!nodes || nodes.length === 0) {
      if (!this.isShort) this.put(this.empty(begin));
    } else {
      this.put(begin);
      this.listed(nodes, method);
    }
  }

  listed(nodes, method) {
    this.put('[');
    this.items(nodes, method, false);
    this.put(']');
  }

  // Items of a list, behind others or at its beginning.
  items(nodes, method, isBehind) {
    for (let at = 0; at < nodes.length; at++) {
      if (isBehind || at > 0) this.put(',');
      this[method](nodes[at]);
    }
  }

  // Two lists as one, each by its method; the first may be missing.
  lists(begin, first, method, nodes, other) {
    if (!first || first.length === 0) return this.list(begin, nodes, other);
    this.put(`${begin}[`);
    this.items(first, method, false);
    this.items(nodes, other, true);
    return this.put(']');
  }
}

module.exports = { JsonText, quoted };
