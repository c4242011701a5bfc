'use strict';
// What is said of a file that isn't printed: the place, its line with a mark under it, and what helps.
const { Fault, located, parsed, titleOf } = require('./trees.js');

const WIDTH = 100;

// The line of a text, or a part of it, with a mark under a place.
function frameOf(text, { line, column }) {
  const whole = text.split(/\r\n|[\n\r\u2028\u2029]/)[line - 1] || '';
  const from = column < WIDTH - 20 ? 0 : column - WIDTH / 2, part = whole.slice(from, from + WIDTH);
  const head = from > 0 ? '..' : '', number = String(line);
  const marked = part.slice(0, column - from).replace(/[^\t]/g, ' ');
  const shown = `${head}${part}${from + WIDTH < whole.length ? '..' : ''}`;
  return `  ${number} | ${shown}\n  ${' '.repeat(number.length)} | ${head && '  '}${marked}^`;
}

function isParsed(text, options) {
  try {
    parsed(text, options);
    return true;
  } catch (error) {
    return false;
  }
}

function isJson(text) {
  try {
    JSON.parse(text);
    return true;
  } catch (error) {
    return false;
  }
}

const MARKUP = /^\s*<(?:!doctype|!--|\?xml|html|template|script|style)\b/i;
const OLDER_BABEL = 'this Babel reads attributes of imports behind `assert`, and not yet behind `with`; the variable BABEL_PARSER names another';
const ATTRIBUTES = /^\s*with\s*\{/;

// What helps with a text that isn't parsed, where that is known.
function hintFor(text, options, { line, column }) {
  const rest = text.split(/\r\n|[\n\r\u2028\u2029]/).slice(line - 1).join('\n').slice(column);
  if (isJson(text)) return 'it is JSON, and no program';
  if (MARKUP.test(text)) return 'it is a page of markup: only what stands in its scripts is a program';
  if (ATTRIBUTES.test(rest)) return OLDER_BABEL;
  if (!options.typescript && isParsed(text, { ...options, typescript: true, jsx: false })) return 'it is TypeScript: --ts';
  if (!(options.typescript && options.jsx) && isParsed(text, { ...options, typescript: true, jsx: true })) return 'it is TypeScript with JSX: --tsx';
  if (options.sourceType !== 'script' && isParsed(text, { ...options, sourceType: 'script' })) return 'it is a script: --script';
  if (options.sourceType !== 'module' && isParsed(text, { ...options, sourceType: 'module' })) return 'it is a module: --module';
  if (/@flow\b/.test(text)) return 'types of Flow have no place in the tree';
  return null;
}

const withHint = (message, hint) => (hint === null ? message : `${message}\nhint: ${hint}`);

// The same error as a fault, in words.
function unparsed(error, text, options) {
  const fault = located(error, options.path);
  if (!(fault instanceof Fault) || !error.loc) return fault;
  const hint = error instanceof SyntaxError ? hintFor(text, options, error.loc) : null;
  return new Fault(withHint(`${fault.message}\n${frameOf(text, error.loc)}`, hint));
}

const HINTS = {
  'not well-formed': '--any prints it all the same',
  'name out of target': 'without --ascii-only the name is printed as it is; from --target es2015 on it has an escape',
  'unsupported node': 'without --any it is told which node no text has',
  'bad shape': 'without --any it is told which node no text has',
};

// Where the node begins that a path of the tree leads to, or the innermost round it that stands somewhere.
function positionAt(tree, path) {
  let node = tree, found = 0;
  for (const step of [null, ...path]) {
    if (step !== null) node = node[step];
    for (; node !== null && typeof node === 'object'; node = Object.values(node)[0]) {
      if (node.span && node.span.lo) found = node.span.lo;
      if (Array.isArray(node) || Object.keys(node).length !== 1 || !/^[A-Z]/.test(Object.keys(node)[0])) break;
    }
    if (node === null || typeof node !== 'object') break;
  }
  return found;
}

// Where in the source the part of a request stands at which it isn't read: the last position before it.
function positionBefore(line, column) {
  const found = [...line.slice(Math.max(0, column - 10000), column).matchAll(/"lo":(\d+)/g)].pop();
  return found ? Number(found[1]) : 0;
}

// Why the program has no text of a file.
function unprinted(error, { tree, source }, options, line) {
  const { kind, cause, rule, message, path } = error, title = titleOf(options.path);
  const isRead = kind === 'bad tree' || kind === 'bad request' || kind === 'bad JSON';
  const what = kind === 'refused' ? `refused: ${cause}` : isRead ? `${kind}: ${message}` : `${kind}${rule ? `: ${rule}` : ''}`;
  const position = path ? positionAt(tree, path) : isRead ? positionBefore(line(), error.column) : 0;
  const hint = HINTS[cause] || HINTS[kind] || null;
  if (!position) return new Fault(withHint(`${title}: ${what}`, hint));
  const place = source.placeAt(source.offsetOf(position));
  return new Fault(withHint(`${title}:${place.line}:${place.column + 1}: ${what}\n${frameOf(source.text, place)}`, hint));
}

module.exports = { unparsed, unprinted };
