'use strict';
// Where lines of texts may be ended. Reads lines of JSON, `{"text":"a,b;","isTyped":false}`, and answers each with how many tokens Babel
// finds in the text, which is TypeScript where it holds types, and with the places behind which a line may end, in UTF-16 units:
// `{"tokens":4,"breaks":[2,4]}`, or `{"fault":".."}`. It is for scripts/dev/try-lines.
//
// A line may be ended right behind `,` `;` `(` `[` `{`, and behind the operator of two operands, but not in templates and JSX.
const { createInterface } = require('readline');
const { parsed } = require('../../packages/ecmaprint/lib/tree_of/parser.js');

const OPENS = [',', ';', '(', '[', '{'];
const BINARY = ['BinaryExpression', 'LogicalExpression'];
const CLOSED = ['TemplateLiteral', 'TSTemplateLiteralType', 'JSXElement', 'JSXFragment'];
const PLAIN = [{ jsx: true }];
const TYPED = [{ jsx: true, typescript: true }, { typescript: true }, { typescript: true, declarations: true }];

function parsedSomehow(text, isTyped) {
  let fault = null;
  for (const manner of isTyped ? TYPED : [...PLAIN, ...TYPED]) {
    try {
      return parsed(text, manner);
    } catch (error) {
      fault = fault || error;
    }
  }
  throw fault;
}

const isNode = (value) => value !== null && typeof value === 'object' && typeof value.type === 'string';

// The nodes of a file, in no order.
function* nodesOf(file) {
  const waiting = [file.program];
  while (waiting.length) {
    const node = waiting.pop();
    yield node;
    for (const key of Object.keys(node)) {
      if (key === 'loc' || key === 'extra') continue;
      const inside = Array.isArray(node[key]) ? node[key] : [node[key]];
      for (const value of inside) if (isNode(value)) waiting.push(value);
    }
  }
}

// Those of the tokens, in their order, that begin at or after a place.
function firstFrom(tokens, place) {
  let low = 0, high = tokens.length;
  while (low < high) {
    const middle = (low + high) >> 1;
    if (tokens[middle].start < place) low = middle + 1;
    else high = middle;
  }
  return tokens[low];
}

function breaksOf({ text, isTyped }) {
  const file = parsedSomehow(text, isTyped);
  // (comments stand among them, and the end)
  const tokens = file.tokens.filter(({ type }) => typeof type !== 'string' && type.label !== 'eof');
  const breaks = new Set(tokens.filter(({ type }) => OPENS.includes(type.label)).map(({ end }) => end));
  const closed = [];
  for (const node of nodesOf(file)) {
    if (BINARY.includes(node.type)) breaks.add(firstFrom(tokens, node.left.end).end);
    if (CLOSED.includes(node.type)) closed.push([node.start, node.end]);
  }
  // what stands in another one, or beside it, is gone through once
  closed.sort(([one], [two]) => one - two);
  let at = 0, until = 0;
  const open = [...breaks].sort((one, two) => one - two).filter((place) => {
    for (; at < closed.length && closed[at][0] < place; at++) until = Math.max(until, closed[at][1]);
    return place >= until;
  });
  return { tokens: tokens.length, breaks: open };
}

function answer(line) {
  try {
    return breaksOf(JSON.parse(line));
  } catch (error) {
    return { fault: error.message };
  }
}

createInterface({ input: process.stdin }).on('line', (line) => console.log(JSON.stringify(answer(line))));
