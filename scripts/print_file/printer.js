'use strict';
// A run of the program `ecmaprint`: it answers its requests in order, each by a line.
const { spawn } = require('child_process');
const { Fault, faultOf } = require('./trees.js');

class Printer {
  constructor(program) {
    this.program = program;
    this.asked = []; // the requests that have no answer yet
    this.run = null;
  }

  // The answer to a request.
  answer(request) {
    return new Promise((resolve, reject) => {
      const waiting = { line: `${JSON.stringify(request)}\n`, resolve, reject };
      this.asked.push(waiting);
      if (this.run === null) this.start();
      else this.run.stdin.write(waiting.line);
    });
  }

  start() {
    const run = spawn(this.program, [], { stdio: ['pipe', 'pipe', 'inherit'] });
    this.run = run;
    let parts = [];
    run.stdout.on('data', (chunk) => {
      for (let at = chunk.indexOf(10); at >= 0; at = chunk.indexOf(10)) {
        parts.push(chunk.subarray(0, at));
        this.take(Buffer.concat(parts).toString('utf8'));
        parts = [];
        chunk = chunk.subarray(at + 1);
      }
      parts.push(chunk);
    });
    run.stdin.on('error', () => {}); // (its end tells)
    run.on('error', (error) => this.ended(run, faultOf(this.program, error)));
    run.on('close', (status, signal) => this.ended(run, new Fault(`${this.program}: ended by ${signal || `status ${status}`}`)));
    this.asked.forEach(({ line }) => run.stdin.write(line));
  }

  take(line) {
    const { resolve, reject } = this.asked.shift() || {};
    if (resolve === undefined) return;
    try {
      resolve(JSON.parse(line));
    } catch (error) {
      reject(new Fault(`${this.program}: its answer is no JSON`));
    }
  }

  // The request under way has no answer; those behind it are asked for anew.
  ended(run, fault) {
    if (run !== this.run) return;
    this.run = null;
    const [first, ...others] = this.asked;
    this.asked = others;
    if (first) first.reject(fault);
    if (others.length > 0) this.start();
  }

  end() {
    if (this.run !== null) this.run.stdin.end();
  }
}

module.exports = { Printer };
