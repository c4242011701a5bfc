'use strict';
// A source text, and where its parts stand: positions are bytes of UTF-8, counted from 1, as swc has them in its first file.

const NOWHERE = Object.freeze({ lo: 0, hi: 0 });

// How many bytes stand before each UTF-16 unit of a text; nothing where that is the number of units, as in ASCII.
function byteOffsets(text) {
  if (!/[^\x00-\x7f]/.test(text)) return null;
  const offsets = new Uint32Array(text.length + 1);
  let bytes = 0;
  for (let at = 0; at < text.length; at++) {
    offsets[at] = bytes;
    const code = text.codePointAt(at);
    bytes += code < 0x80 ? 1 : code < 0x800 ? 2 : code < 0x10000 ? 3 : 4;
    if (code > 0xffff) offsets[++at] = bytes;
  }
  offsets[text.length] = bytes;
  return offsets;
}

const SURROGATE = /[\ud800-\udfff]/;

// A text as the tree has it: a surrogate without its other half is a written escape, `\uD83D`.
function wellFormed(text) {
  if (!SURROGATE.test(text)) return text;
  return text.replace(/[\ud800-\udbff][\udc00-\udfff]|[\ud800-\udfff]/g, (found) =>
    found.length === 2 ? found : '\\u' + found.charCodeAt(0).toString(16).toUpperCase());
}

const LINE_END = /\r\n|[\n\r\u2028\u2029]/g;

// Where the lines of a text begin, as ECMA-262 has lines.
function lineStarts(text) {
  return [0, ...Array.from(text.matchAll(LINE_END), (found) => found.index + found[0].length)];
}

// How many of some ascending numbers are no more than one.
function countUpTo(numbers, most) {
  let low = 0, high = numbers.length;
  while (low < high) {
    const middle = (low + high) >> 1;
    if (numbers[middle] <= most) low = middle + 1;
    else high = middle;
  }
  return low;
}

class Source {
  // With `nowhere` all stands at no position; with `splits` a string that the tree has no form for is a sum of two.
  constructor(text, { nowhere = false, splits = false } = {}) {
    this.text = text;
    this.nowhere = nowhere;
    this.splits = splits;
    this.offsets = byteOffsets(text);
  }

  position(at) {
    if (this.nowhere) return 0;
    return (this.offsets ? this.offsets[at] : at) + 1;
  }

  // The unit of the text at a position: `position` turned round.
  offsetOf(position) {
    return this.offsets ? countUpTo(this.offsets, position - 1) - 1 : position - 1;
  }

  // The line, from 1, and the column, from 0, of a unit of the text.
  placeAt(at) {
    this.lines = this.lines || lineStarts(this.text);
    const line = countUpTo(this.lines, at);
    return { line, column: at - this.lines[line - 1] };
  }

  between(start, end) {
    return this.nowhere ? NOWHERE : { lo: this.position(start), hi: this.position(end) };
  }

  span(node) {
    return this.between(node.start, node.end);
  }

  spelled(node) {
    return this.text.slice(node.start, node.end);
  }

  // Where the nearest such character stands before a position, and behind one.
  before(mark, at) {
    return this.text.lastIndexOf(mark, at - 1);
  }

  behind(mark, at) {
    return this.text.indexOf(mark, at) + mark.length;
  }
}

module.exports = { Source, NOWHERE, wellFormed, lineStarts, countUpTo };
