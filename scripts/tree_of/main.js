'use strict';
// See scripts/tree-of.
const { writeFileSync } = require('fs');
const { FLAGS, Fault, byName, faultOf, textOf, located, titleOf } = require('../../packages/ecmaprint/lib/tree_of/files.js');
const { treeOf } = require('../../packages/ecmaprint/lib/tree_of/tree.js');

const OWN = { '--estree': 'estree', '--without-parentheses': 'bare', '--parenthesize': 'mends', '--flat': 'flat' };

function options(words) {
  const given = { estree: false, bare: false, mends: false, flat: false };
  let path = null, comments = null;
  for (let at = 0; at < words.length; at++) {
    const word = words[at];
    if (word in FLAGS) Object.assign(given, FLAGS[word]);
    else if (word in OWN) given[OWN[word]] = true;
    else if (word === '--comments') comments = words[++at];
    else if (path === null && (word === '-' || !word.startsWith('-'))) path = word;
    else return null;
  }
  return path === null || comments === undefined || (given.estree && comments !== null) ? null : { path, comments, ...byName(path), ...given };
}

function parsedJson(text, path) {
  try {
    return JSON.parse(text);
  } catch (error) {
    throw new Fault(`${titleOf(path)}: no JSON: ${error.message}`);
  }
}

// The tree that is asked for, its comments, and warnings.
function made(asked) {
  const text = textOf(asked.path);
  try {
    return asked.estree ? require('../../packages/ecmaprint/lib/tree_of/ast_tree.js').treeOfAst(parsedJson(text, asked.path), asked) : treeOf(text, asked);
  } catch (error) {
    throw located(error, asked.path);
  }
}

// The tree without its parentheses, or with those that the syntax asks for.
function reshaped(tree, { bare, mends }) {
  const structure = bare || mends ? require('../structure_model/structure.js') : null;
  const stripped = bare ? structure.bare(tree) : tree;
  return mends ? structure.parenthesize(stripped) : stripped;
}

function written(path, value) {
  try {
    writeFileSync(path, JSON.stringify(value) + '\n');
  } catch (error) {
    if (error.code === 'EPIPE') process.exit(1); // (whoever read the tree has enough of it)
    throw faultOf(path === 1 ? 'standard output' : path, error);
  }
}

function main() {
  const asked = options(process.argv.slice(2));
  if (asked === null) {
    console.error('usage: scripts/tree-of [OPTIONS] FILE (--help tells more)');
    process.exit(2);
  }
  const { tree, comments, warnings } = made(asked);
  const shaped = reshaped(tree, asked);
  written(1, asked.flat ? require('../../packages/ecmaprint/lib/tree_of/flat.js').flat(shaped) : shaped);
  if (asked.comments !== null) written(asked.comments, comments);
  warnings.forEach((warning) => console.error(`${titleOf(asked.path)}:${warning}`));
}

try {
  main();
} catch (error) {
  console.error(error instanceof Fault ? error.message : error.stack);
  process.exit(1);
}
