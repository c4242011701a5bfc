'use strict';
// Edits of a printed text, after which its positions are true again.
const { countUpTo } = require('./trees.js');

// The line ends that the program counts.
const COUNTED_LINE_END = /\r\n|[\n\r]/g;

// Where the lines of a text begin.
const startsOf = (text) => [0, ...Array.from(text.matchAll(COUNTED_LINE_END), (found) => found.index + found[0].length)];

// A text and its positions after edits, which come in order: each puts a text in the place of a part. Its `marks` say where in that some
// positions stand.
function edited({ text, positions }, edits) {
  const parts = [], ends = [], moves = [], marked = new Map();
  let at = 0, moved = 0;
  for (const { start, end, text: fresh, marks = [] } of edits) {
    marks.forEach(([position, place]) => marked.set(position, start + moved + place));
    parts.push(text.slice(at, start), fresh);
    at = end;
    moved += fresh.length - (end - start);
    ends.push(end);
    moves.push(moved);
  }
  const whole = [...parts, text.slice(at)].join(''), starts = startsOf(text), freshStarts = startsOf(whole);
  const placeOf = (position, line, column) => {
    if (marked.has(position)) return marked.get(position);
    const place = starts[line] + column, passed = countUpTo(ends, place), edit = edits[passed];
    // (the end of a comment whose lines are shorter now stays behind it)
    const most = edit && edit.start <= place ? edit.start + edit.text.trimEnd().length : place;
    return Math.min(place, most) + (passed === 0 ? 0 : moves[passed - 1]);
  };
  return {
    text: whole,
    positions: positions.map(([position, line, column]) => {
      const place = placeOf(position, line, column), freshLine = countUpTo(freshStarts, place) - 1;
      return [position, freshLine, place - freshStarts[freshLine]];
    }),
  };
}

module.exports = { edited, startsOf };
