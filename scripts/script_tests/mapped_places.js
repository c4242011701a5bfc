'use strict';
// Where places of a text lead by its map: each LINE:COLUMN to its source, the line and the column there, and its name.
const { readFileSync } = require('fs');
const { SourceMapConsumer } = require('source-map');

const [path, ...places] = process.argv.slice(2);
Promise.resolve(new SourceMapConsumer(JSON.parse(readFileSync(path, 'utf8')))).then((map) => {
  for (const place of places) {
    const [line, column] = place.split(':').map(Number), found = map.originalPositionFor({ line, column });
    console.log(`${found.source}:${found.line}:${found.column} ${found.name}`);
  }
});
