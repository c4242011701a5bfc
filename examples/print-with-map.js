#!/usr/bin/env node
'use strict';
// Prints files by one run of `ecmaprint`: Babel parses each, and beside FILE come FILE.out, its text with comments and the lines that
// its lists have, and FILE.out.map, a source map (version 3). Debian packages: nodejs, node-babel7 (which brings node-source-map).
// (To use it elsewhere, put the folder packages/ecmaprint beside it, or its path into PACKAGE.)
//
// usage: node examples/print-with-map.js PROGRAM [--minify] FILE ..
const { spawn } = require('child_process');
const { readFileSync, writeFileSync } = require('fs');
const { basename } = require('path');
const { createInterface } = require('readline');

module.paths.push('/usr/share/nodejs', '/usr/lib/nodejs'); // (where Debian has packages)
const PACKAGE = '../packages/ecmaprint';
const { SourceMapGenerator } = require('source-map');
const { byName, located } = require(`${PACKAGE}/lib/tree_of/files.js`);
const { flat } = require(`${PACKAGE}/lib/tree_of/flat.js`);
const { treeOf } = require(`${PACKAGE}/lib/tree_of/tree.js`);

// A run of the program: it answers its requests in order, each by a line.
class Printer {
  constructor(program) {
    this.waiting = [];
    this.run = spawn(program, [], { stdio: ['pipe', 'pipe', 'inherit'] });
    createInterface({ input: this.run.stdout }).on('line', (line) => this.waiting.shift().resolve(JSON.parse(line)));
    const end = (error) => this.waiting.splice(0).forEach(({ reject }) => reject(error));
    this.run.stdin.on('error', () => {}); // (the end of the run tells)
    this.run.on('error', end).on('close', (status, signal) => end(new Error(`${program} ended: ${signal || `status ${status}`}`)));
  }

  answer(request) {
    return new Promise((resolve, reject) => {
      this.waiting.push({ resolve, reject });
      this.run.stdin.write(`${JSON.stringify(request)}\n`);
    });
  }

  end() {
    this.run.stdin.end();
  }
}

// Positions are bytes of the source text from 1; lines and columns of the printed text are counted from 0, those of maps from 1 and 0.
function mapOf(file, source, { code, positions }) {
  const map = new SourceMapGenerator({ file: `${basename(file)}.out` });
  map.setSourceContent(basename(file), source.text);
  for (const [position, line, column] of positions) {
    const original = source.placeAt(source.offsetOf(position));
    map.addMapping({ source: basename(file), original, generated: { line: line + 1, column } });
  }
  return { text: `${code.trimEnd()}\n//# sourceMappingURL=${encodeURIComponent(basename(file))}.out.map\n`, map: map.toString() };
}

async function print(printer, file, config) {
  const { tree, comments, source } = treeOf(readFileSync(file, 'utf8'), { ...byName(file), flat: true });
  const answer = await printer.answer({ id: file, flat: flat(tree), source: source.text, comments, config, positions: true });
  if (answer.error) throw new Error(`${file}: ${JSON.stringify(answer.error)}`);
  const { text, map } = mapOf(file, source, answer);
  writeFileSync(`${file}.out`, text);
  writeFileSync(`${file}.out.map`, map);
}

async function main([program, ...words]) {
  const files = words.filter((word) => word !== '--minify'), config = { minify: words.includes('--minify') };
  if (files.length === 0 || files.some((file) => file.startsWith('-'))) {
    console.error('usage: node examples/print-with-map.js PROGRAM [--minify] FILE ..');
    process.exit(2);
  }
  const printer = new Printer(program);
  const tell = (file) => (error) => {
    console.error(located(error, file).message);
    process.exitCode = 1;
  };
  await Promise.all(files.map((file) => print(printer, file, config).catch(tell(file))));
  printer.end();
}

main(process.argv.slice(2));
