'use strict';
// The lines of comments in a printed text. The program writes a comment where it takes it, as `*/ function f() {`, and none before the `}` of
// an object or a class. Here each gets the lines that it has in its source, and the indentation of what follows; and one that the program left
// goes before the token that follows it in the source, where that begins a line. Only gaps change, between two tokens, that have a line end
// already.
const { edited, startsOf } = require('./edits.js');

const LINE_END = /\r\n|[\n\r\u2028\u2029]/;
const BLANK = /[ \t\r\n]/;
const BLANKS = 4; // of a level, unless others are asked for
const CLOSERS = ['}', ']', ')'];
// behind these a line end means nothing
const OPENERS = ['{', '(', '[', ',', ';', ':'];

const spelled = ({ kind, text }) => (kind === 'Line' ? `//${text}` : `/*${text}*/`);

// What a level of indentation is in a text with these settings, and what ends its lines.
const layoutOf = ({ indent = BLANKS, new_line: lineEnd = '\n' }) => ({ unit: typeof indent === 'number' ? ' '.repeat(indent) : indent, lineEnd });

// The blanks that a line begins with.
const blanksAt = (text, start) => /^[ \t]*/.exec(text.slice(start, start + 1000))[0];

// What a source says of a comment: the blanks of its line, whether something stands before it there, whether it ends its line, and where
// the next token begins.
class InSource {
  constructor(source, comments) {
    this.source = source;
    this.ends = new Map(comments.map(({ span }) => [source.offsetOf(span.lo), source.offsetOf(span.hi)]));
  }

  linesOf({ span }) {
    const { text } = this.source, start = this.source.offsetOf(span.lo), end = this.ends.get(start);
    const lineStart = start - this.source.placeAt(start).column;
    const isBehind = text.slice(lineStart, start).trim() !== '', endsLine = /^[ \t]*(?:$|[\r\n\u2028\u2029])/.test(text.slice(end, end + 1000));
    return { blanks: blanksAt(text, lineStart), isBehind, endsLine };
  }

  // Where the token behind a comment begins; nothing at the source's end.
  tokenBehind({ span }) {
    const { text } = this.source;
    let at = this.ends.get(this.source.offsetOf(span.lo));
    while (at < text.length && (this.ends.has(at) || /\s/.test(text[at]))) at = this.ends.get(at) || at + 1;
    return at < text.length ? at : null;
  }
}

// Where a text has comments, and where it may get those that the program left.
class Places {
  constructor({ text, positions }, comments, source) {
    Object.assign(this, { text, source, starts: startsOf(text), inSource: new InSource(source, comments), byPosition: new Map() });
    for (const [position, line, column] of positions) {
      const known = this.byPosition.get(position), at = this.starts[line] + column;
      if (known === undefined) this.byPosition.set(position, [at]);
      else known.push(at);
    }
  }

  // The comments that stand in the text.
  printed(comments) {
    return comments.flatMap((comment) => {
      const at = (this.byPosition.get(comment.span.lo) || []).find((each) => this.text.startsWith(spelled(comment), each));
      return at === undefined ? [] : [{ comment, start: at, end: at + spelled(comment).length, ...this.inSource.linesOf(comment) }];
    });
  }

  // The token in the text that a comment may go before, since it begins a line there and follows the comment in the source.
  tokenFor(comment) {
    const token = this.inSource.tokenBehind(comment);
    if (token === null) return this.text.length;
    const beginsLine = (at) => {
      let before = at - 1;
      while (before >= 0 && ' \t'.includes(this.text[before])) before--;
      return before < 0 || LINE_END.test(this.text[before]);
    };
    return (this.byPosition.get(this.source.position(token)) || []).find((at) => this.text[at] === this.source.text[token] && beginsLine(at));
  }

  left(comments) {
    const found = comments.map((comment) => ({ comment, token: this.tokenFor(comment), ...this.inSource.linesOf(comment) }));
    return found.filter(({ token }) => token !== undefined);
  }
}

// The gaps between tokens that have comments: those with nothing but blanks and line ends between them, and the blanks round them.
function gapsOf(text, printed, left) {
  const gaps = [];
  for (const each of printed.sort((one, other) => one.start - other.start)) {
    const last = gaps[gaps.length - 1];
    if (last && text.slice(last.end, each.start).trim() === '') {
      last.comments.push(each);
      last.end = each.end;
    } else {
      gaps.push({ comments: [each], start: each.start, end: each.end });
    }
  }
  const widened = gaps.map((gap) => ({ ...gap, printedEnd: gap.end, ...blanksRound(text, gap) }));
  const byEnd = new Map(widened.map((gap) => [gap.end, gap]));
  for (const { token, ...each } of left) {
    const { start } = blanksRound(text, { start: token, end: token });
    if (!byEnd.has(token)) byEnd.set(token, { comments: [], start, end: token, printedEnd: start });
    byEnd.get(token).comments.push(each);
  }
  byEnd.forEach(({ comments }) => comments.sort((one, other) => one.comment.span.lo - other.comment.span.lo));
  return [...byEnd.values()].sort((one, other) => one.start - other.start);
}

function blanksRound(text, { start, end }) {
  while (start > 0 && BLANK.test(text[start - 1])) start--;
  while (end < text.length && BLANK.test(text[end])) end++;
  return { start, end };
}

// A comment's text with its further lines moved as far as its first one.
function reindented({ comment, blanks }, indentation) {
  return spelled(comment).replace(/(\r\n|[\n\r\u2028\u2029])([ \t]*)(?=[^ \t\r\n\u2028\u2029])/g, (_, end, own) => {
    const kept = own.startsWith(blanks) ? own.slice(blanks.length) : own.slice(Math.min(own.length, blanks.length));
    return `${end}${indentation}${kept}`;
  });
}

class Layout {
  constructor(text, isMoved, { unit, lineEnd }) {
    Object.assign(this, { text, isMoved, unit, lineEnd });
  }

  // The blanks of the line in which a place of the text stands.
  indentationAt(at) {
    return blanksAt(this.text, Math.max(this.text.lastIndexOf('\n', at - 1), this.text.lastIndexOf('\r', at - 1)) + 1);
  }

  // What a gap is like: what stands round it, and the indentation of its comments and of what follows.
  measured({ comments, start, end, printedEnd }) {
    const { text } = this, next = text[end] || '', previous = start === 0 ? '' : text[start - 1];
    const head = text.slice(start, comments[0].start === undefined ? end : comments[0].start);
    const beginsLine = LINE_END.test(text.slice(printedEnd, end)), isInner = CLOSERS.includes(next);
    const hasLineEnd = start === 0 || LINE_END.test(text.slice(start, end)) || comments.some(({ comment }) => comment.kind === 'Line');
    const following = next === '' ? '' : this.indentationAt(beginsLine ? end : isInner || !LINE_END.test(head) ? start : comments[0].start);
    const isDeeper = isInner || (!beginsLine && !LINE_END.test(head) && ['{', '[', '('].includes(previous));
    return { previous, next, head, beginsLine, isInner, hasLineEnd, following, own: isDeeper ? following + this.unit : following };
  }

  // Whether the first comment of a gap stands in the line of the token before it, as in its source.
  isBehind([first, ...others], { previous, head, isInner }) {
    if (this.isMoved(first.comment) || !first.isBehind || previous === '') return false;
    if (!LINE_END.test(head)) return true;
    const endsLine = first.endsLine || (isInner && others.length === 0 && OPENERS.includes(previous));
    return endsLine && (first.comment.kind === 'Line' || OPENERS.includes(previous));
  }

  // A gap's text with its comments, and where in it each of them stands.
  laid({ comments, start }, gap) {
    const isBehind = this.isBehind(comments, gap), places = [];
    let text = '', isEnded = false;
    comments.forEach((each, index) => {
      const staysInLine = index === 0 ? isBehind : !isEnded && each.isBehind;
      if (index === 0 && staysInLine) text = LINE_END.test(gap.head) || (gap.head === '' && gap.previous !== '(') ? ' ' : gap.head;
      else if (index > 0 || start > 0) text += staysInLine ? ' ' : `${this.lineEnd}${gap.own}`;
      places.push([each.comment, text.length]);
      text += reindented(each, index === 0 && staysInLine ? this.indentationAt(start) : gap.own);
      isEnded = each.comment.kind === 'Line' || each.endsLine;
    });
    if (gap.next === '') return { text: `${text}${this.lineEnd}`, places };
    const staysInLine = !isEnded && (gap.isInner ? isBehind : !gap.beginsLine);
    return { text: text + (staysInLine ? ' ' : `${this.lineEnd}${gap.following}`), places };
  }

  edits(gaps) {
    return gaps.flatMap((each) => {
      const gap = this.measured(each);
      return gap.hasLineEnd ? [{ start: each.start, end: each.end, ...this.laid(each, gap) }] : [];
    });
  }
}

// A text and its positions with the lines that its comments have in their source, those that were left among them.
function withLines(page, { comments, left, isMoved }, source, layout) {
  const places = new Places(page, comments, source);
  const edits = new Layout(page.text, isMoved, layout).edits(gapsOf(page.text, places.printed(comments), places.left(left)));
  return edited(page, edits.map(({ places: placed, ...edit }) => ({ ...edit, marks: placed.flatMap(([{ kind, span, text }, at]) => (
    kind === 'Line' ? [[span.lo, at], [span.hi, at + text.length + 2]] : [[span.lo, at]])) })));
}

// Those of some comments that `withLines` can put into a text.
function withPlaces(page, { comments, left }, source) {
  const places = new Places(page, comments, source);
  return left.filter((comment) => places.tokenFor(comment) !== undefined);
}

module.exports = { layoutOf, withLines, withPlaces };
