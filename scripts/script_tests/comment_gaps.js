'use strict';
// Puts a comment between each two tokens of some statements, prints each text with its comment by `PROGRAM`, and tells where the comment is lost, stands
// twice, or makes the text another program: `node comment_gaps.js PROGRAM [--minify]`.
const { isDeepStrictEqual } = require('util');
const { mkdtempSync, rmSync, writeFileSync } = require('fs');
const { tmpdir } = require('os');
const { join } = require('path');
const { byName } = require('../../packages/ecmaprint/lib/tree_of/files.js');
const { parsed } = require('../../packages/ecmaprint/lib/tree_of/parser.js');
const { Printer } = require('../print_file/printer.js');
const { printed } = require('../print_file/printing.js');

const TEXTS = [
  ['a.js', 'const o = {\n  a: 1, b,\n  [c]: d,\n  e() { f(); },\n  ...g\n}, [h, i = 2] = j;'],
  ['b.js', 'class A extends B {\n  static x = 1;\n  #y;\n  get z() { return this.#y; }\n  static { a(); }\n}'],
  ['c.js', 'for (const a of b) { if (c) d(); else e(); }\nwhile (f) g++;\ndo { h; } while (i);\nl: for (;;) { break l; }'],
  ['d.js', 'switch (a) {\n  case 1:\n  case 2: b(); break;\n  default:\n}\ntry { c(); } catch (e) {} finally { f(); }\nthrow new G(h, i);'],
  ['e.mjs', 'import a, { b as c } from "d";\nexport { a, c as e };\nexport default async function* f(g, ...h) { yield* g; await h; return a; }'],
  ['f.js', 'x = async (a) => ({ b: a?.c?.[d]?.(e) });\ny = a ? b : c ? d : (e, f);\nz = [1, , 2].map((k) => k ** 2);\nw = `a${b}c${d}`;'],
  ['g.ts', 'interface I<T> {\n  a?: string;\n  b(c: T): void;\n}\nenum E { A = 1, B }\ntype U = { x: I<E> | null }[];\nabstract class C<T> implements D { private e: T; abstract f(): void; }'],
  ['h.jsx', 'x = <a b={c} {...d}>text {e} <f/></a>;\ny();'],
];
const COMMENTS = ['/* <> */', '// <>\n', '/* <>\n */'];
const LEFT = ['start', 'end', 'loc', 'extra', 'innerComments', 'leadingComments', 'trailingComments'];

const bare = (node) => {
  if (node === null || typeof node !== 'object' || node instanceof RegExp) return node;
  if (Array.isArray(node)) return node.map(bare);
  if (node.type === 'ParenthesizedExpression') return bare(node.expression); // (behind `return` and `yield` a comment brings a pair)
  return Object.fromEntries(Object.entries(node).filter(([name]) => !LEFT.includes(name)).map(([name, part]) => [name, bare(part)]));
};

function read(text, name) {
  try {
    const { program, comments } = parsed(text, byName(name));
    return { program: bare(program), comments };
  } catch (error) {
    return null;
  }
}

// Each text with a comment in a gap, where it is one there and the text is the same program: in some gaps it makes another one of the source itself.
function casesOf([name, text]) {
  const { tokens } = parsed(text, byName(name)), { program } = read(text, name);
  const gaps = tokens.filter(({ type }) => type.label !== 'jsxText').map(({ start }) => start);
  return gaps.flatMap((at) => COMMENTS.map((comment) => ({ name, program, given: `${text.slice(0, at)}${comment}${text.slice(at)}` }))).filter(({ given }) => {
    const made = read(given, name);
    return made !== null && made.comments.length === 1 && isDeepStrictEqual(made.program, program);
  });
}

// What is wrong with the print of a text.
async function faultOf(path, { given, program }, options, printer) {
  writeFileSync(path, given);
  const { texts: [{ text: out }], told } = await printed({ path, target: null }, options, printer), again = read(out, path);
  if (again === null) return `not read: ${out}`;
  if (again.comments.length !== 1 || again.comments[0].value.trim() !== '<>') return `${again.comments.length} comments: ${out}${told.join('\n')}`;
  return isDeepStrictEqual(again.program, program) ? null : `another program: ${out}`;
}

async function main([program, ...words]) {
  const folder = mkdtempSync(join(tmpdir(), 'gaps-')), printer = new Printer(program);
  const options = { config: words.includes('--minify') ? { minify: true } : {}, comments: 'all', ofFile: {} };
  const cases = TEXTS.flatMap(casesOf), all = cases.map((each, at) => faultOf(join(folder, `${at}-${each.name}`), each, options, printer));
  (await Promise.all(all)).forEach((fault, at) => fault !== null && console.log(`${JSON.stringify(cases[at].given)}\n${fault}`));
  console.log(`${cases.length} texts`);
  printer.end();
  rmSync(folder, { recursive: true });
}

main(process.argv.slice(2));
