'use strict';
// Reads lines of JSON, each a text as a string, and answers each with the comments that acorn finds in it, in order, as they are
// written, or with null where it reads none of it. See scripts/dev/compare-comments.
let acorn;
try {
  acorn = require('acorn');
} catch (error) {
  process.exit(3);
}

function commentsOf(text) {
  for (const sourceType of ['script', 'module']) {
    const found = [];
    const onComment = (isBlock, value) => found.push(isBlock ? `/*${value}*/` : `//${value}`);
    try {
      acorn.parse(text, { ecmaVersion: 'latest', sourceType, onComment, allowReturnOutsideFunction: true, allowSuperOutsideMethod: true, allowHashBang: true });
      // (a hashbang counts as a comment there)
      return text.startsWith('#!') ? found.slice(1) : found;
    } catch (error) {
      // (the other may have it)
    }
  }
  return null;
}

const lines = require('fs').readFileSync(0, 'utf8').split('\n').filter((line) => line);
for (const line of lines) process.stdout.write(JSON.stringify(commentsOf(JSON.parse(line))) + '\n');
