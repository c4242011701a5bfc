'use strict';
// Tells how many comments two files have, where they have the same ones (but for the blanks round their lines) and the same tree, and else what differs.
const { readFileSync } = require('fs');
const { isDeepStrictEqual } = require('util');
const { byName } = require('../../packages/ecmaprint/lib/tree_of/files.js');
const { parsed } = require('../../packages/ecmaprint/lib/tree_of/parser.js');

const [one, other] = process.argv.slice(2).map((path) => parsed(readFileSync(path, 'utf8'), byName(path)));
const texts = ({ comments }) => comments.map(({ value }) => value.split(/\r\n|[\n\r]/).map((line) => line.trim()).join('\n')).sort();

// (a tree without places, spellings and comments)
const bare = (node) => {
  if (node === null || typeof node !== 'object' || node instanceof RegExp) return node;
  if (Array.isArray(node)) return node.map(bare);
  const left = ['start', 'end', 'loc', 'extra', 'innerComments', 'leadingComments', 'trailingComments'];
  return Object.fromEntries(Object.entries(node).filter(([name]) => !left.includes(name)).map(([name, part]) => [name, bare(part)]));
};

const [here, there] = [texts(one), texts(other)];
here.filter((text) => !there.includes(text)).forEach((text) => console.log(`lost: ${text}`));
there.filter((text) => !here.includes(text)).forEach((text) => console.log(`new: ${text}`));
if (here.length !== there.length) console.log(`${here.length} comments became ${there.length}`);
if (!isDeepStrictEqual(bare(one.program), bare(other.program))) console.log('another tree');
console.log(`${there.length} comments`);
