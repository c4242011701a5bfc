'use strict';
// See scripts/dev/compare-sources.
const { spawn } = require('child_process');
const { existsSync, readFileSync } = require('fs');
const { createInterface } = require('readline');
const { byName } = require('../../packages/ecmaprint/lib/tree_of/files.js');
const { flat } = require('../../packages/ecmaprint/lib/tree_of/flat.js');
const { treeOf } = require('../../packages/ecmaprint/lib/tree_of/tree.js');

const MANNERS = {
  pretty: { config: {}, args: [] },
  minified: { config: { minify: true }, args: ['--minify'] },
};

function failed(why) {
  console.error(why);
  process.exit(1);
}

// A program that answers lines in order.
class Service {
  constructor(words) {
    this.waiting = [];
    this.run = spawn(words[0], words.slice(1), { stdio: ['pipe', 'pipe', 'inherit'] });
    createInterface({ input: this.run.stdout, crlfDelay: Infinity }).on('line', (line) => this.waiting.shift()(JSON.parse(line)));
    this.run.on('error', (error) => failed(`${words[0]}: ${error.code}`));
    this.run.on('exit', (status) => this.waiting.length > 0 && failed(`${words[0]} ended: ${status}`));
    this.run.stdin.on('error', () => {}); // (it has ended, and its exit is told)
  }

  answer(request) {
    return new Promise((resolve) => {
      this.waiting.push(resolve);
      this.run.stdin.write(JSON.stringify(request) + '\n');
    });
  }
}

const once = (positions) => [...new Set(positions.map(String))];
const textsOf = (side) => Object.fromEntries(Object.entries(side).map(([at, list]) => [at, list.map((one) => one.text)]));

function ours(answer) {
  if (answer.error) return { why: answer.error.cause || answer.error.kind };
  return { code: answer.code, positions: once(answer.positions), left: { leading: textsOf(answer.left.leading), trailing: textsOf(answer.left.trailing) } };
}

function theirs({ status, out, err, positions }) {
  if (status !== 0) return { why: err.join(' ') };
  const left = err.filter((line) => line.startsWith('{"left"')).map((line) => JSON.parse(line));
  return { code: out, positions: once(positions), left: Object.fromEntries(left.map((one) => [one.left, one.comments])) };
}

// Where two answers differ first, in some words.
function difference(our, their) {
  if (our.why || their.why) return our.why && their.why ? null : `${our.why || 'a text'} and not ${their.why || 'a text'}`;
  if (our.code !== their.code) {
    let at = 0;
    while (our.code[at] === their.code[at]) at++;
    return `text: ${JSON.stringify(our.code.slice(Math.max(0, at - 30), at + 40))} and not ${JSON.stringify(their.code.slice(Math.max(0, at - 30), at + 40))}`;
  }
  const [at, atTheirs] = [new Set(our.positions), new Set(their.positions)];
  const missing = their.positions.filter((one) => !at.has(one)), more = our.positions.filter((one) => !atTheirs.has(one));
  if (missing.length + more.length > 0) return `positions: ${more.slice(0, 3).join(' ')} and not ${missing.slice(0, 3).join(' ')}`;
  return JSON.stringify(our.left) === JSON.stringify(their.left) ? null : 'comments that are left';
}

async function main(program, reference, paths) {
  const [printer, oracle] = [new Service([program]), new Service([reference, '--batch'])];
  const count = { files: 0, unread: 0, texts: 0, comments: 0, differ: 0 };
  for await (const path of paths) {
    let read;
    try {
      read = treeOf(readFileSync(path, 'utf8'), { ...byName(path), flat: true });
    } catch (error) {
      count.unread++;
      continue;
    }
    const { tree, comments, source } = read;
    count.files++;
    count.comments += [comments.leading, comments.trailing].flatMap((side) => Object.values(side)).flat().length;
    for (const [name, manner] of Object.entries(MANNERS)) {
      const asked = { flat: flat(tree), source: source.text, comments, config: manner.config, positions: true, any: true, id: path };
      const words = { args: [...manner.args, '--positions', '--left', '--mapper', 'source'], tree, comments, source: source.text };
      const [our, their] = await Promise.all([printer.answer(asked), oracle.answer(words)]);
      if (our.id !== path) throw new Error(`${path}: an answer to ${our.id}`);
      const found = difference(ours(our), theirs(their));
      count.texts++;
      if (found) console.log(`${path}, ${name}: ${found}`), count.differ++;
    }
  }
  console.log(`${count.files} files, ${count.comments} comments, ${count.texts} texts: ${count.differ} differ; Babel refused ${count.unread} files`);
  process.exit(count.differ > 0 ? 1 : 0);
}

const [program, reference, ...given] = process.argv.slice(2);
for (const path of [program, reference]) if (!existsSync(path)) failed(`${path}: no such program`);
main(program, reference, given.length > 0 ? given : createInterface({ input: process.stdin }));
