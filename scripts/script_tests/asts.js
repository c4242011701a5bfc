'use strict';
// Prints the AST of a file as JSON: `node asts.js acorn|babel|estree FILE`, by acorn, by Babel, or by Babel in the form of ESTree.
const { readFileSync } = require('fs');
const [who, path] = process.argv.slice(2);
const text = readFileSync(path, 'utf8');
const plugins = path.endsWith('.ts') ? ['typescript'] : ['jsx'];

function byAcorn() {
  return require('acorn').parse(text, { ecmaVersion: 'latest', sourceType: 'script', allowReturnOutsideFunction: true });
}

function byBabel(more) {
  return require('@babel/parser').parse(text, { sourceType: 'unambiguous', allowReturnOutsideFunction: true, plugins: [...plugins, ...more] });
}

const ast = { acorn: byAcorn, babel: () => byBabel([]), estree: () => byBabel(['estree']) }[who]();
console.log(JSON.stringify(ast, (key, value) => (typeof value === 'bigint' ? null : value)));
