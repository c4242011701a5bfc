'use strict';
// Files printed by this process, or by several at once, each of which has a run of the program.
const { fork } = require('child_process');
const { availableParallelism } = require('os');
const { join } = require('path');
const { Fault } = require('./trees.js');
const { Printer } = require('./printer.js');
const { printed } = require('./printing.js');
const { placed } = require('./results.js');

const FILES_A_PROCESS = 8;
const AHEAD = 2; // files under way in one process: one is parsed while another is printed

// What became of a file: what is told, what goes to standard output, and whether something went wrong or would change.
async function resultOf(file, options, printer) {
  try {
    return placed(file, await printed(file, options, printer), options);
  } catch (error) {
    return { told: [error instanceof Fault ? error.message : `${file.path}: ${error.stack}`], fails: true };
  }
}

// Goes through files, so many at once, and hands over their results in order of the files.
async function inOrder(files, width, work, take) {
  const results = new Map();
  let next = 0, taken = 0;
  const one = async () => {
    while (next < files.length) {
      const at = next++;
      results.set(at, await work(files[at]));
      for (; results.has(taken); results.delete(taken++)) take(files[taken], results.get(taken));
    }
  };
  await Promise.all(Array.from({ length: Math.min(width, files.length) }, one));
}

async function byOne(files, options, program, take) {
  const printer = new Printer(program);
  await inOrder(files, AHEAD, (file) => resultOf(file, options, printer), take);
  printer.end();
}

// A process beside this one: it answers a file by what became of it, or by nothing where it ended before.
class Beside {
  constructor(options, program) {
    this.process = fork(join(__dirname, 'worker.js'), { stdio: ['ignore', 'inherit', 'inherit', 'ipc'], serialization: 'advanced' });
    this.process.send({ options, program });
    this.waiting = [];
    this.process.on('message', (result) => this.waiting.shift()(result));
    this.process.on('error', () => {}); // (its end tells)
    this.process.on('exit', (status, signal) => {
      this.ended = signal || `status ${status}`;
      this.waiting.splice(0).forEach((resolve) => resolve(null));
    });
  }

  result(file) {
    if (this.ended) return Promise.resolve(null);
    return new Promise((resolve) => {
      this.waiting.push(resolve);
      this.process.send({ file });
    });
  }

  end() {
    if (!this.ended) this.process.disconnect();
  }
}

// What becomes of a file in a process of its own, since another one ended with it.
async function resultAlone(file, options, program) {
  const own = new Beside(options, program), result = await own.result(file);
  own.end();
  return result || { told: [`${file.path}: the process that printed it ended by ${own.ended}`], fails: true };
}

async function bySeveral(files, options, program, count, take) {
  const processes = Array.from({ length: count }, () => new Beside(options, program)), idle = processes.flatMap((each) => Array(AHEAD).fill(each));
  const work = async (file) => {
    const one = idle.shift();
    const result = await one.result(file) || await resultAlone(file, options, program);
    if (!one.ended) {
      idle.push(one);
    } else if (processes.includes(one)) {
      const fresh = new Beside(options, program);
      processes.splice(processes.indexOf(one), 1, fresh);
      idle.push(...Array(AHEAD).fill(fresh));
    }
    return result;
  };
  await inOrder(files, idle.length, work, take);
  processes.forEach((each) => each.end());
}

// Prints files, and hands over what became of each.
function printFiles(files, options, program, take) {
  const most = Math.ceil(files.length / FILES_A_PROCESS), count = Math.min(options.jobs || Math.min(availableParallelism(), most), files.length);
  return count > 1 ? bySeveral(files, options, program, count, take) : byOne(files, options, program, take);
}

module.exports = { printFiles, resultOf };
