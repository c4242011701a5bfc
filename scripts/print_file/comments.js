'use strict';
// Which comments a request has, and where those go that the program left: before the property, the member or the statement that they stand in.

const LEGAL = /^[!*]?!|@(?:license|preserve)\b/;
const SIDES = ['leading', 'trailing'];

// Both maps with the comments alone that a test lets pass.
function filtered(comments, passes) {
  const made = { leading: {}, trailing: {} };
  for (const side of SIDES) {
    for (const [position, list] of Object.entries(comments[side])) {
      const kept = list.filter(passes);
      if (kept.length > 0) made[side][position] = kept;
    }
  }
  return made;
}

// All comments of both maps, in order of the source.
const listed = (comments) => SIDES.flatMap((side) => Object.values(comments[side]).flat()).sort((one, other) => one.span.lo - other.span.lo);

// Both maps, with the lines of comments ended as those of the text.
function withLineEnds(comments, { endOfLine }) {
  if (endOfLine !== 'crlf') return comments;
  listed(comments).forEach((comment) => Object.assign(comment, { text: comment.text.replace(/\r?\n/g, '\r\n') }));
  return comments;
}

// The comments that a run asks for. A file's map has another name then, so a comment that names it goes.
function wanted(comments, { comments: which, map }) {
  if (which === 'none') return null;
  const namesMap = ({ text }) => map && /^[#@]\s*sourceMappingURL=/.test(text);
  return filtered(comments, (comment) => !namesMap(comment) && (which === 'all' || LEGAL.test(comment.text)));
}

// The lists whose parts may have comments before them, each in a line of its own.
const LISTS = new Set(['body', 'stmts', 'props', 'elems', 'args', 'members', 'cases', 'cons', 'specifiers']);

// The parts of such lists in a tree, each with its range (its span, or from its first part to its last) and that of what has the list.
function partsOfLists(tree) {
  const found = [];
  const rangeOf = (node) => {
    if (typeof node.lo === 'number') return node;
    let lo = 0, hi = 0;
    const lists = [];
    for (const name in node) {
      const part = node[name];
      if (part === null || typeof part !== 'object') continue;
      const isList = LISTS.has(name) && Array.isArray(part);
      const ranges = isList ? part.filter((each) => each !== null && typeof each === 'object').map(rangeOf) : [rangeOf(part)];
      if (isList) lists.push(...ranges);
      for (const range of ranges) {
        if (range.lo && (!lo || range.lo < lo)) lo = range.lo;
        if (range.hi > hi) hi = range.hi;
      }
    }
    const range = node.span && node.span.lo ? node.span : { lo, hi };
    lists.filter((each) => each.lo).forEach((each) => found.push({ lo: each.lo, hi: each.hi, of: range }));
    return range;
  };
  rangeOf(tree);
  return found;
}

// The places for a comment, the nearest first: before the part of a list that it stands behind, and before each that it stands in.
function placesFor({ lo: at }, parts) {
  const size = ({ lo, hi }) => hi - lo;
  const around = parts.filter(({ lo, hi }) => lo < at && at < hi).sort((one, other) => size(one) - size(other));
  const inner = around.length > 0 ? size(around[0]) : Infinity;
  const behind = parts.filter(({ hi, of }) => hi <= at && of.lo < at && at < of.hi && size(of) <= inner);
  const least = Math.min(...behind.map(({ of }) => size(of)));
  const near = behind.filter(({ of }) => size(of) === least).sort((one, other) => other.hi - one.hi).slice(0, 1);
  return [...new Set([...near, ...around].map(({ lo }) => lo))];
}

// The comments with a line end before the one parameter of an async arrow function: minified it has no parentheses, and a line end behind
// `async` makes another program.
function unsafeMinified(tree, comments) {
  const found = [], hasLineEnd = ({ kind, text }) => kind === 'Line' || /[\n\r\u2028\u2029]/.test(text);
  const walk = (node) => {
    const { Arrow: arrow } = node;
    if (arrow && arrow.is_async && arrow.params.length === 1 && arrow.params[0].Ident) {
      found.push(...(comments.leading[arrow.params[0].Ident.id.span.lo] || []).filter(hasLineEnd));
    }
    for (const part of Object.values(node)) {
      if (part !== null && typeof part === 'object') walk(part);
    }
  };
  walk(tree);
  return found;
}

// A comment of a list before those of the source's later places, and behind the others.
function inserted(list, comment) {
  const at = list.findIndex(({ span }) => span.lo > comment.span.lo);
  return at < 0 ? [...list, comment] : [...list.slice(0, at), comment, ...list.slice(at)];
}

// What moves the comments that an answer left, each a place on with every answer, until it has been at all of them.
class Moves {
  constructor(tree) {
    this.tree = tree;
    this.parts = null;
    this.places = new Map(); // of each comment that was left, by its beginning
  }

  // The comments for the next request, of which these were left; nothing where none can be moved.
  next(comments, left) {
    if (left.length === 0) return null;
    this.parts = this.parts || partsOfLists(this.tree);
    const moving = new Map();
    for (const { span } of left) {
      if (!this.places.has(span.lo)) this.places.set(span.lo, placesFor(span, this.parts));
      const places = this.places.get(span.lo);
      if (places.length > 0) moving.set(span.lo, places.shift());
    }
    if (moving.size === 0) return null;
    const made = filtered(comments, ({ span }) => !moving.has(span.lo));
    for (const comment of listed(comments).filter(({ span }) => moving.has(span.lo))) {
      const to = moving.get(comment.span.lo);
      made.leading[to] = inserted(made.leading[to] || [], comment);
    }
    return made;
  }

  has({ span }) {
    return this.places.has(span.lo);
  }
}

// A warning for each comment that is left after all.
function warningsOf(left, source) {
  return left.map(({ text, span }) => {
    const { line, column } = source.placeAt(source.offsetOf(span.lo));
    return `${line}:${column + 1}: warning: this comment has no place in the text, and is left out: ${JSON.stringify(text.trim().slice(0, 40))}`;
  });
}

module.exports = { Moves, listed, unsafeMinified, wanted, warningsOf, withLineEnds };
