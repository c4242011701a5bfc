'use strict';
// The tree of a source text: what Babel's parser makes of it, in the JSON that `ecmagen` reads. Each file beside this one has
// the methods for an area of the tree; those for a sum go by Babel's name of the node.
const { NoTree } = require('./files.js');
const { check, isNone } = require('./check.js');
const { JsonText } = require('./json_text.js');
const { NOWHERE } = require('./source.js');
const { parsed } = require('./parser.js');
const { commentsOf } = require('./comments.js');
const { deepest } = require('./levels.js');

const MOST_LEVELS = 127; // of JSON, that `serde_json` reads

class Tree extends JsonText {
  constructor(text, options) {
    super(text, options);
    this.warnings = []; // each with its line
  }

  // (of an AST alone the line may be unknown)
  warn(line, what) {
    this.warnings.push(`${line ? `${line}:` : ''} warning: ${what}`);
  }

  // The tree of a file, as a value.
  tree(file) {
    this.program(file);
    return JSON.parse(this.written());
  }

  // Where nothing stands.
  unplaced() {
    return this.isShort ? undefined : NOWHERE;
  }

  refuse(node, wanted) {
    throw new NoTree(`${node.type} is not ${wanted}`, node);
  }

  // Refuses a node with any of these members: nothing reads them here, and a program without them is another program.
  without(node, ...names) {
    for (const name of names) {
      if (!isNone(node[name])) throw new NoTree(`${node.type} can't be printed with its \`${name}\` here`, node, [name]);
    }
  }
}

for (const area of ['leaves', 'expressions', 'patterns', 'functions', 'statements', 'modules', 'jsx', 'types']) {
  Object.assign(Tree.prototype, require(`./${area}.js`));
}

// Warns where a tree nests deeper than its JSON is read.
function warnOfDepth(source, tree, text, file) {
  if (deepest(tree, MOST_LEVELS).levels <= MOST_LEVELS) return;
  // (of a tree that stands nowhere another tells where)
  const { levels, at } = deepest(new Tree(text).tree(file), MOST_LEVELS);
  source.warn(source.placeAt(source.offsetOf(at)).line, `the JSON nests ${levels} levels deep, and here past the ${MOST_LEVELS} that ecmagen reads`);
}

// The tree of a text, and its comments, by the kind of its file, with warnings of what is refused.
function treeOf(text, options) {
  const file = parsed(text, options);
  check(file.program);
  const source = new Tree(text, options);
  const tree = source.tree(file), comments = commentsOf(source, file);
  if (!options.flat) warnOfDepth(source, tree, text, file);
  return { tree, comments, source, warnings: source.warnings, errors: file.errors || [] };
}

module.exports = { Tree, MOST_LEVELS, treeOf };
