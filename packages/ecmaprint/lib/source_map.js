'use strict';
// Source maps (version 3).
const { lineStarts, countUpTo } = require('./tree_of/source.js');
const { PrintError } = require('./errors.js');
const { placeOf } = require('./places.js');

const DIGITS = 'ABCDEFGHIJKLMNOPQRSTUVWXYZabcdefghijklmnopqrstuvwxyz0123456789+/';

function vlq(number) {
  let rest = number < 0 ? (-number << 1) | 1 : number << 1, text = '';
  do {
    const digit = rest & 31;
    rest >>>= 5;
    text += DIGITS[rest ? digit | 32 : digit];
  } while (rest);
  return text;
}

const COMMON = 1000; // numbers below this are most of them
const OF_COMMON = Array.from({ length: 2 * COMMON }, (_, at) => vlq(at - COMMON));
const vlqOf = (number) => (number >= -COMMON && number < COMMON ? OF_COMMON[number + COMMON] : vlq(number));

// Numbers for texts, in the order in which they come.
class Numbers {
  constructor() {
    this.texts = [];
    this.known = new Map();
  }

  of(text) {
    const found = this.known.get(text);
    if (found !== undefined) return found;
    this.known.set(text, this.texts.length);
    return this.texts.push(text) - 1;
  }
}

// What a mapping has in the list of all: its line and column from 0, the number of its source, the line and the column there, and the number of
// its name.
const ROW = 6, NO_NAME = -1;

class SourceMap {
  constructor({ file, sourceRoot, sourcesContent = true }) {
    Object.assign(this, { file, sourceRoot, sourcesContent, sources: new Numbers(), names: new Numbers(), contents: new Map(), rows: [] });
  }

  // A mapping, in the order of the printed text. One that tells nothing new is left out.
  add(line, column, source, originalLine, originalColumn, name) {
    const { rows } = this, last = rows.length - ROW, number = this.sources.of(source);
    if (last >= 0 && rows[last] === line) {
      if (rows[last + 1] === column && !(name && rows[last + 5] === NO_NAME)) return;
      if (!name && rows[last + 2] === number && rows[last + 3] === originalLine && rows[last + 4] === originalColumn) return;
    }
    rows.push(line, column, number, originalLine, originalColumn, name ? this.names.of(name) : NO_NAME);
  }

  encoded() {
    const { rows } = this;
    let text = '', inLine = 0, atColumn = 0, inSource = 0, fromLine = 0, fromColumn = 0, named = 0, isFirst = true;
    for (let at = 0; at < rows.length; at += ROW) {
      for (; inLine < rows[at]; inLine++) {
        text += ';';
        atColumn = 0;
        isFirst = true;
      }
      text += `${isFirst ? '' : ','}${vlqOf(rows[at + 1] - atColumn)}${vlqOf(rows[at + 2] - inSource)}${vlqOf(rows[at + 3] - fromLine)}${vlqOf(rows[at + 4] - fromColumn)}`;
      atColumn = rows[at + 1];
      inSource = rows[at + 2];
      fromLine = rows[at + 3];
      fromColumn = rows[at + 4];
      isFirst = false;
      if (rows[at + 5] === NO_NAME) continue;
      text += vlqOf(rows[at + 5] - named);
      named = rows[at + 5];
    }
    return text;
  }

  toJSON() {
    const mappings = this.encoded(), sources = this.sources.texts;
    const map = { version: 3, ...(this.file ? { file: this.file } : {}), ...(this.sourceRoot ? { sourceRoot: this.sourceRoot } : {}), sources };
    if (this.sourcesContent && this.contents.size > 0) map.sourcesContent = sources.map((name) => (this.contents.has(name) ? this.contents.get(name) : null));
    return { ...map, names: this.names.texts, mappings };
  }

  // As `@babel/generator` lists them: lines from 1.
  raw() {
    const { rows } = this, list = [];
    for (let at = 0; at < rows.length; at += ROW) {
      const [line, column, source, originalLine, originalColumn, name] = rows.slice(at, at + ROW);
      list.push({
        generated: { line: line + 1, column }, original: { line: originalLine + 1, column: originalColumn }, source: this.sources.texts[source],
        name: name === NO_NAME ? undefined : this.names.texts[name],
      });
    }
    return list;
  }
}

const COUNTED_LINE_END = /\r\n|[\n\r]/g; // the program's; ECMA-262 has U+2028 and U+2029 besides

// Where a place that the program tells stands by the lines of ECMA-262; nothing where these are the same.
function placesIn(text) {
  if (!/[\r\u2028\u2029]/.test(text)) return null;
  const counted = [0, ...Array.from(text.matchAll(COUNTED_LINE_END), (found) => found.index + found[0].length)], lines = lineStarts(text);
  return (line, column) => {
    const at = counted[line] + column, real = countUpTo(lines, at);
    return [real - 1, at - lines[real - 1]];
  };
}

// Recorded positions in the order of the text: a text that was held back may have been written late.
function inOrder(positions) {
  for (let at = 1; at < positions.length; at++) {
    const before = positions[at - 1], next = positions[at];
    if (next[1] < before[1] || (next[1] === before[1] && next[2] < before[2])) return [...positions].sort((one, other) => one[1] - other[1] || one[2] - other[2]);
  }
  return positions;
}

// The name of a node in the source: as Babel tells it of one that was renamed, or as it stands there.
function nameOf({ type, name, start, loc }, code) {
  if (loc && loc.identifierName) return loc.identifierName;
  return type === 'Identifier' && typeof code === 'string' && code.startsWith(name, start) ? name : undefined;
}

const SEMICOLON = 59;

// The map of a printed text, of positions whose nodes a tree knows.
function mapOf({ code: text, positions }, tree, options, code) {
  const { sourceFileName = 'unknown' } = options, map = new SourceMap(options);
  if (typeof code === 'string') map.contents.set(sourceFileName, code);
  else for (const name in code || {}) map.contents.set(name, code[name]);
  const places = placesIn(text), starts = places === null ? lineStarts(text) : null;
  for (const recorded of inOrder(positions)) {
    const position = recorded[0], line = recorded[1], column = recorded[2];
    const node = tree.nodeAt(position), end = node === undefined ? null : tree.endAt(position), place = end === null ? null : placeOf(node, end, code);
    if (place === null) continue;
    const { loc } = node, isStart = end === 'start', source = (loc && (loc.filename || loc.source)) || sourceFileName, name = isStart ? nameOf(node, code) : undefined;
    if (places !== null) {
      const [realLine, realColumn] = places(line, column);
      map.add(realLine, realColumn, source, place.line - 1, place.column, name);
    } else {
      // (a semicolon that was held back stands before the statement)
      const isHeld = isStart && text.charCodeAt(starts[line] + column) === SEMICOLON && node.type !== 'EmptyStatement';
      map.add(line, isHeld ? column + 1 : column, source, place.line - 1, place.column, name);
    }
  }
  return map;
}

// A kept library that puts maps together: Babel brings the first.
function composer() {
  for (const name of ['@ampproject/remapping', '@jridgewell/remapping', 'source-map']) {
    try {
      return { name, library: require(name) };
    } catch (error) {
      if (error.code !== 'MODULE_NOT_FOUND') throw error;
    }
  }
  throw new PrintError('no library', '`inputSourceMap` takes the package @ampproject/remapping, or source-map');
}

const rootless = (map) => ({ ...map, sourceRoot: undefined });

// A map led through the map of its source: to what that source was made of.
function composed(map, input, sourceFileName = map.sources[0]) {
  const before = typeof input === 'string' ? JSON.parse(input) : input, { name, library } = composer();
  if (name === 'source-map') {
    const { SourceMapConsumer, SourceMapGenerator } = library, made = SourceMapGenerator.fromSourceMap(new SourceMapConsumer(map));
    made.applySourceMap(new SourceMapConsumer(before), sourceFileName);
    return made.toJSON();
  }
  const remap = library.default || library;
  const made = remap(rootless(map), (source, context) => {
    if (source !== sourceFileName || context.depth !== 1) return null;
    context.source = '';
    return rootless(before);
  });
  return { ...JSON.parse(JSON.stringify(made)), ...(before.sourceRoot ? { sourceRoot: before.sourceRoot } : {}) };
}

module.exports = { mapOf, composed };
