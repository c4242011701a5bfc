'use strict';
// What this folder takes of the package that makes trees of source texts.
const FROM = '../../packages/ecmaprint/lib/tree_of';
const { Fault, NoTree, byName, faultOf, located, textOf, titleOf } = require(`${FROM}/files.js`);
const { flat } = require(`${FROM}/flat.js`);
const { parsed } = require(`${FROM}/parser.js`);
const { countUpTo, lineStarts } = require(`${FROM}/source.js`);
const { treeOf } = require(`${FROM}/tree.js`);

module.exports = { Fault, NoTree, byName, countUpTo, faultOf, flat, lineStarts, located, parsed, textOf, titleOf, treeOf };
