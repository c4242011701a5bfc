'use strict';
// Reads a source map with Debian's `source-map`: `node mapped_names.js TEXT MAP SOURCE` prints how many names TEXT has by acorn, and a line for
// each that the map doesn't take to the same name in SOURCE; with `--places` behind these the map needn't say it.
const { readFileSync } = require('fs');
const { SourceMapConsumer } = require('source-map');
const { tokenizer, tokTypes } = require('acorn');

const files = process.argv.slice(2).filter((word) => word !== '--places'), bare = process.argv.includes('--places');
const [text, map, source] = files.map((path) => readFileSync(path, 'utf8').replace(/^\ufeff/, ''));
const lines = source.split(/\r\n|[\n\r\u2028\u2029]/);
const consumer = new SourceMapConsumer(JSON.parse(map));
let names = 0;
for (const { type, value, loc } of tokenizer(text, { ecmaVersion: 'latest', sourceType: 'module', locations: true })) {
  if (type !== tokTypes.name) continue;
  names++;
  const found = consumer.originalPositionFor({ line: loc.start.line, column: loc.start.column });
  const there = found.line === null ? '' : lines[found.line - 1].slice(found.column, found.column + value.length);
  if ((!bare && found.name !== value) || there !== value) console.log(`${loc.start.line}:${loc.start.column} ${value}: ${JSON.stringify(found)}`);
}
console.log(`${names} names`);
