'use strict';
// Why there is no text.
const { placeOf } = require('./places.js');

// The lines of a source round a place, with a mark under it.
function frameOf(code, loc) {
  if (typeof code !== 'string' || !loc) return null;
  const lines = code.split(/\r\n|[\n\r\u2028\u2029]/), from = Math.max(0, loc.line - 3), width = String(loc.line + 2).length;
  return lines.slice(from, loc.line + 2).flatMap((text, index) => {
    const number = from + index + 1, isIt = number === loc.line;
    const row = `${isIt ? '>' : ' '} ${String(number).padStart(width)} | ${text}`;
    return isIt ? [row, `  ${' '.repeat(width)} | ${' '.repeat(loc.column)}^`] : [row];
  }).join('\n');
}

// A path in words: `program.body[0].expression`.
const spelled = (path) => path.map((step, at) => (typeof step === 'number' ? `[${step}]` : at === 0 ? step : `.${step}`)).join('');
const shortened = (words) => (words.length > 200 ? `${words.slice(0, 100)} .. ${words.slice(-80)}` : words);

// `kind` says what sort of error it is and `reason` why, `path` leads to the node in the AST, `loc` is its place in the source.
class PrintError extends Error {
  constructor(kind, reason, { path = null, node = null, code = null, ...more } = {}) {
    const found = node ? placeOf(node, 'start', code) : null, place = found && { line: found.line, column: found.column };
    const loc = place && node.loc && node.loc.filename ? { ...place, filename: node.loc.filename } : place;
    const frame = frameOf(code, loc), way = path && path.length > 0 ? ` at ${shortened(spelled(path))}` : '';
    super(`${kind}: ${reason}${way}${loc ? ` (${loc.line}:${loc.column})` : ''}${frame ? `\n${frame}` : ''}`);
    Object.assign(this, { name: 'PrintError', kind, code: `ECMAPRINT_${kind.toUpperCase().replace(/\W+/g, '_')}`, reason, path, node, loc, frame, ...more });
  }
}

module.exports = { PrintError };
