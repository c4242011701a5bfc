'use strict';
// See scripts/print.
const { existsSync, writeSync } = require('fs');
const { Fault, faultOf } = require('./trees.js');
const { filesOf, foldersOf } = require('./files.js');
const { programOf } = require('./programs.js');
const { Watch } = require('./watch.js');
const { USAGE, asked, help } = require('./words.js');
const { printFiles } = require('./workers.js');

// Writes to standard output, whole though a pipe takes it in parts.
function say(text) {
  const bytes = Buffer.from(text);
  try {
    for (let at = 0; at < bytes.length;) {
      try {
        at += writeSync(1, bytes, at);
      } catch (error) {
        if (error.code !== 'EAGAIN') throw error;
      }
    }
  } catch (error) {
    if (error.code === 'EPIPE') process.exit(1); // (whoever read the text has enough of it)
    throw faultOf('standard output', error);
  }
}

// How far a run is, in one line of a terminal.
class Progress {
  constructor(count) {
    Object.assign(this, { count, done: 0, failed: 0, isShown: count > 1 && !!process.stderr.isTTY });
  }

  step(fails) {
    this.done++;
    if (fails) this.failed++;
    this.show();
  }

  show() {
    if (this.isShown) process.stderr.write(`\r\x1b[K${this.text()}`);
  }

  hide() {
    if (this.isShown) process.stderr.write('\r\x1b[K');
  }

  text() {
    return `${this.done} of ${this.count} files${this.failed > 0 ? `, ${this.failed} of them with faults` : ''}`;
  }
}

// Prints files, tells of each, and says whether one failed or would change.
async function run(files, options, program) {
  const progress = new Progress(files.length);
  let isFine = true, written = 0;
  await printFiles(files, options, program, ({ path, target }, { told = [], out, changes, fails, isWritten }) => {
    progress.hide();
    told.forEach((line) => console.error(line));
    if (out !== undefined) say(out);
    if (changes) say(`${target === null ? path : target}\n`);
    if (fails || changes) isFine = false;
    if (isWritten) written++;
    progress.step(fails);
  });
  progress.hide();
  if (files.length > 1) console.error(`${progress.text()}${options.check ? '' : `, ${written} written`}`);
  return isFine;
}

async function main() {
  const words = process.argv.slice(2);
  if (words.includes('-h') || words.includes('--help')) {
    console.log(help());
    return;
  }
  const options = asked(words), files = filesOf(options);
  // (no program is built for files that aren't there)
  const program = files.some(({ path }) => path === '-' || existsSync(path)) ? programOf(options) : null;
  const isFine = await run(files, options, program);
  process.exitCode = isFine ? 0 : 1;
  if (!options.watch) return;
  const print = async (changed) => {
    console.error(`${new Date().toTimeString().slice(0, 8)} ${changed.map(({ path }) => path).join(', ')}`);
    await run(changed, options, program);
  };
  const watch = new Watch({ files: () => filesOf(options), foldersOf: (found) => foldersOf(options, found), print });
  watch.begin(files);
  console.error(`${files.length} ${files.length === 1 ? 'file is' : 'files are'} watched`);
}

main().catch((error) => {
  console.error(error instanceof Fault ? error.message : error.stack);
  if (error.status === 2) console.error(USAGE);
  process.exit(error.status || 1);
});
