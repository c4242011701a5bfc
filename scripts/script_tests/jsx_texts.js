'use strict';
// Prints what the texts and strings of JSX in a file mean, by Babel, a line of JSON each: `node jsx_texts.js FILE`.
const { readFileSync } = require('fs');
const { parse } = require('@babel/parser');

function walk(node, visit) {
  if (node === null || typeof node !== 'object') return;
  if (typeof node.type === 'string') visit(node);
  Object.values(node).forEach((part) => walk(part, visit));
}

const file = parse(readFileSync(process.argv[2], 'utf8'), { sourceType: 'module', plugins: ['jsx', 'typescript'] });
walk(file.program, (node) => {
  if (node.type === 'JSXText') console.log(JSON.stringify(node.value));
  if (node.type === 'JSXAttribute' && node.value && node.value.type === 'StringLiteral') console.log(JSON.stringify(node.value.value));
});
