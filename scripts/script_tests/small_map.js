'use strict';
// A source map in JSON, of a file's one line: for each name its column there, its line and column in the source, and the name.
const { SourceMapGenerator } = require('source-map');

const [file, source, content, names] = process.argv.slice(2), map = new SourceMapGenerator({ file });
map.setSourceContent(source, content);
for (const [column, line, original, name] of JSON.parse(names)) {
  map.addMapping({ source, generated: { line: 1, column }, original: { line, column: original }, name });
}
process.stdout.write(map.toString());
