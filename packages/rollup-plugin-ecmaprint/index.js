'use strict';
// Prints Rollup's chunks, and those of Vite: minified unless `minify` is false. Names stay. Rollup puts the source maps together.
const { Printer } = require('ecmaprint');

// Rollup's own parser tells comments up to version 3; later acorn tells them, where it is installed.
function parserOf(context) {
  if (!context.meta || Number.parseInt(context.meta.rollupVersion, 10) < 4) return (code, options) => context.parse(code, options);
  try {
    const acorn = require('acorn');
    return (code, options) => acorn.parse(code, options);
  } catch (error) {
    return (code) => context.parse(code);
  }
}

module.exports = function ecmaprint({ program, sync, ...options } = {}) {
  let printer = null;
  return {
    name: 'ecmaprint',
    async renderChunk(code, chunk, { format, sourcemap }) {
      if (printer === null) printer = new Printer({ program, sync });
      const comments = [], sourceType = format === 'es' ? 'module' : 'script';
      const ast = parserOf(this)(code, { onComment: comments, locations: true, ecmaVersion: 'latest', sourceType, allowHashBang: true });
      const asked = { minify: true, comments: 'some', sourceMaps: !!sourcemap, any: 'retry', ...options };
      const printed = await printer.print({ ...ast, comments, sourceType }, asked, code);
      if (printed.left.length > 0) this.warn(`${chunk.fileName}: ${printed.left.length} comments have no place in the text`);
      return { code: printed.code, map: printed.map };
    },
    closeBundle() {
      if (printer !== null) printer.end();
      printer = null;
    },
  };
};
