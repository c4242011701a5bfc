'use strict';
// Source maps, of the positions that a program recorded. A file that was made itself, and has a map, leads to what it was made of.
const { readFileSync } = require('fs');
const { basename, dirname, isAbsolute, relative, resolve } = require('path');
const { Fault, countUpTo, faultOf, lineStarts, titleOf } = require('./trees.js');
const { listed } = require('./comments.js');

// The line ends that the program counts: ECMA-262 has U+2028 and U+2029 besides.
const COUNTED_LINE_END = /\r\n|[\n\r]/g;

const isUrl = (name) => /^[a-z][a-z+.-]+:/i.test(name);

function library(name) {
  try {
    return require(name);
  } catch (error) {
    throw new Fault(`no package ${name} here: apt-get install node-babel7`);
  }
}

// The names of a tree, by their positions.
function namesOf(tree) {
  const found = new Map();
  const walk = (node) => {
    if (typeof node.sym === 'string') found.set(node.span.lo, node.sym);
    for (const part of Object.values(node)) {
      if (part !== null && typeof part === 'object') walk(part);
    }
  };
  walk(tree);
  return found;
}

// What a name may begin with in a text: as a key it may be a string.
const NAME_START = /[\p{ID_Start}$_\\"]/u;

// Where a place that the program tells, in its lines, stands in the text by the lines that readers of maps have, and whether a name may begin
// there: where a semicolon was held back a statement begins before it.
function placesIn(text) {
  const counted = [0, ...Array.from(text.matchAll(COUNTED_LINE_END), (found) => found.index + found[0].length)];
  const lines = lineStarts(text);
  return (line, column) => {
    const at = counted[line] + column, real = countUpTo(lines, at);
    const isName = at < text.length && NAME_START.test(String.fromCodePoint(text.codePointAt(at)));
    return { generated: { line: real, column: at - lines[real - 1] }, isName };
  };
}

// The map of a text to its own file.
function ownMap(text, positions, { source, tree }, { path, target }) {
  const { SourceMapGenerator } = library('source-map');
  const title = path === '-' ? 'stdin' : target === null ? path : relative(dirname(target), path);
  const map = new SourceMapGenerator(target === null ? {} : { file: basename(target) });
  const placeOf = placesIn(text), names = namesOf(tree);
  map.setSourceContent(title, source.text);
  for (const [position, line, column] of positions) {
    const original = source.placeAt(source.offsetOf(position)), { generated, isName } = placeOf(line, column);
    map.addMapping({ source: title, original, generated, name: isName ? names.get(position) : undefined });
  }
  return map.toJSON();
}

function mapIn(text, path) {
  try {
    const map = JSON.parse(text.replace(/^\)\]\}'[^\n]*\n/, ''));
    if (map !== null && typeof map === 'object' && map.version === 3 && typeof map.mappings === 'string' && Array.isArray(map.sources)) return map;
  } catch (error) {
    throw new Fault(`${path}: no JSON: ${error.message}`);
  }
  throw new Fault(`${path}: no source map of version 3`);
}

function mapOfFile(path) {
  try {
    return { map: mapIn(readFileSync(path, 'utf8'), path), folder: dirname(path) };
  } catch (error) {
    throw error instanceof Fault ? error : faultOf(path, error);
  }
}

// The map that a file names in its last such comment, and the folder that its sources are named from. One elsewhere in the net isn't asked for.
function namedMap({ comments }, path) {
  const names = listed(comments).map(({ text }) => /^[#@][ \t]+sourceMappingURL=(\S+)\s*$/.exec(text)).filter((found) => found !== null);
  const [, url] = names.pop() || [];
  if (url === undefined) return null;
  const [, isBase64, content] = /^data:[^,]*?(;base64)?,(.*)$/.exec(url) || [];
  if (content !== undefined) {
    const text = isBase64 ? Buffer.from(content, 'base64').toString('utf8') : decodeURIComponent(content);
    return { map: mapIn(text, 'the text of its sourceMappingURL'), folder: dirname(path) };
  }
  return isUrl(url) ? null : mapOfFile(resolve(dirname(path), decodeURIComponent(url)));
}

// The map that a file has, if it is to be gone through; one that it names and that can't be read gives a warning.
function inputMap(file, { path, inputMap: given }) {
  if (given === 'no') return {};
  if (given !== undefined) return { input: mapOfFile(given) };
  try {
    return { input: path === '-' ? null : namedMap(file, path) };
  } catch (error) {
    if (!(error instanceof Fault)) throw error;
    return { warning: `${titleOf(path)}: warning: the map that it names is left out: ${error.message}` };
  }
}

// A map gone through that of its one source, with the sources' names from where the text is.
function composed(map, { map: input, folder }, { target }) {
  const made = library('@ampproject/remapping')([map, input], () => null), from = target === null ? '.' : dirname(target);
  const named = (name) => (name === null || isUrl(name) || isAbsolute(name) ? name : relative(from, resolve(folder, name)));
  return { ...JSON.parse(made.toString()), sources: made.sources.map(named) };
}

function mapOf(text, positions, file, options) {
  const own = ownMap(text, positions, file, options), { input, warning } = inputMap(file, options);
  const map = input ? composed(own, input, options) : own;
  if (options.sourcesContent === 'no') delete map.sourcesContent;
  if (options.sourceRoot !== undefined) map.sourceRoot = options.sourceRoot;
  return { json: JSON.stringify(map), warning };
}

// A text whose last line names its map, and the map; without a file for the text that line holds it.
function withMap(text, positions, file, options) {
  const { json, warning } = mapOf(text, positions, file, options), { target } = options, end = options.endOfLine === 'crlf' ? '\r\n' : '\n';
  const url = target === null
    ? `data:application/json;charset=utf-8;base64,${Buffer.from(json).toString('base64')}`
    : `${encodeURIComponent(basename(target))}.map`;
  const whole = text === '' || /[\r\n]$/.test(text) ? text : `${text}${end}`;
  return { text: `${whole}//# sourceMappingURL=${url}${end}`, map: target === null ? null : `${json}\n`, warning };
}

module.exports = { withMap };
