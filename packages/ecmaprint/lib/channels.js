'use strict';
// Ways to a running program: each sends a line, as bytes with a line feed at their end, and has the answer's, as bytes or as a text. Where the
// program ends, what was asked of it fails, and the channel is of no more use (`isOver`).
const { spawn, spawnSync } = require('child_process');
const fs = require('fs');
const os = require('os');
const path = require('path');
const { PrintError } = require('./errors.js');

const LINE_FEED = 10;
const ended = (how) => new PrintError('program ended', `the program ecmaprint ended (${how}) before it answered`);

// Without waiting: any number of requests under way, answered in order.
class Service {
  constructor(program) {
    Object.assign(this, { waiting: [], parts: [], isOver: false });
    this.run = spawn(program, [], { stdio: ['pipe', 'pipe', 'inherit'] });
    this.run.stdout.on('data', (chunk) => this.take(chunk));
    this.run.on('error', (error) => this.fail(error.message)).on('close', (code, signal) => this.fail(signal || `status ${code}`));
    this.run.stdin.on('error', () => {}); // (`close` comes then, too)
    this.hold(false);
  }

  // Whether Node waits for the program: it may end while no request is under way.
  hold(isBusy) {
    for (const each of [this.run, this.run.stdin, this.run.stdout]) if (each) (isBusy ? each.ref : each.unref).call(each);
  }

  fail(how) {
    this.isOver = true;
    this.waiting.splice(0).forEach(({ reject }) => reject(ended(how)));
  }

  take(chunk) {
    let rest = chunk;
    for (let at = rest.indexOf(LINE_FEED); at >= 0; at = rest.indexOf(LINE_FEED)) {
      this.parts.push(rest.subarray(0, at));
      const line = Buffer.concat(this.parts);
      this.parts = [];
      rest = rest.subarray(at + 1);
      this.waiting.shift().resolve(line);
    }
    if (rest.length > 0) this.parts.push(rest);
    if (this.waiting.length === 0) this.hold(false);
  }

  answer(line) {
    if (this.isOver) return Promise.reject(ended('before it was asked'));
    this.hold(true);
    return new Promise((resolve, reject) => {
      this.waiting.push({ resolve, reject });
      this.run.stdin.write(line);
    });
  }

  end() {
    this.isOver = true;
    this.run.stdin.end();
  }
}

// A run of the program for each request.
class Spawning {
  constructor(program) {
    Object.assign(this, { program, isOver: false });
  }

  answer(line) {
    const { stdout, error, status, signal } = spawnSync(this.program, [], { input: line, encoding: 'utf8', maxBuffer: Infinity, stdio: ['pipe', 'pipe', 'inherit'] });
    if (error && error.code !== 'EPIPE') throw ended(error.message);
    if (!stdout.endsWith('\n')) throw ended(signal || `status ${status}`);
    return stdout;
  }

  end() {}
}

// One run, by two named pipes that are read and written by calls that wait: Unix alone.
class Pipes {
  constructor(program) {
    this.isOver = false;
    const folder = fs.mkdtempSync(path.join(os.tmpdir(), 'ecmaprint-')), [to, from] = ['to', 'from'].map((name) => path.join(folder, name));
    try {
      if (spawnSync('mkfifo', ['-m', '600', to, from]).status !== 0) throw ended('mkfifo made no pipes');
      // the shell opens the pipes, so that each end waits for the other
      this.run = spawn('/bin/sh', ['-c', 'exec "$0" <"$1" >"$2"', program, to, from], { stdio: ['ignore', 'ignore', 'inherit'] });
      this.run.on('error', () => {}).unref();
      if (this.run.pid === undefined) throw ended('no shell could be run');
      this.to = fs.openSync(to, 'w');
      this.from = fs.openSync(from, 'r');
    } finally {
      fs.rmSync(folder, { recursive: true });
    }
    this.line = Buffer.allocUnsafe(1 << 20);
  }

  answer(line) {
    try {
      for (let at = 0; at < line.length;) at += fs.writeSync(this.to, line, at);
      return this.read();
    } catch (error) {
      this.end();
      throw error instanceof PrintError ? error : ended(error.code === 'EPIPE' ? 'its input was closed' : error.message);
    }
  }

  // An answer, which stands here until the next one does.
  read() {
    for (let size = 0; ;) {
      if (size === this.line.length) this.line = Buffer.concat([this.line], 2 * size);
      const more = fs.readSync(this.from, this.line, size, this.line.length - size);
      if (more === 0) throw ended('its output was closed');
      size += more;
      if (this.line[size - 1] === LINE_FEED) return this.line.subarray(0, size);
    }
  }

  end() {
    if (this.isOver) return;
    this.isOver = true;
    fs.closeSync(this.to);
    fs.closeSync(this.from);
  }
}

const MOST_SILENCE = 30000; // ms without a sign of life of a thread

// One run, kept by a thread that this one sleeps for: all systems.
class Threaded {
  constructor(program) {
    const { Worker, MessageChannel } = require('worker_threads');
    const { port1, port2 } = new MessageChannel();
    Object.assign(this, { isOver: false, port: port1, signal: new Int32Array(new SharedArrayBuffer(8)) });
    const workerData = { program, port: port2, signal: this.signal };
    this.worker = new Worker(path.join(__dirname, 'thread.js'), { workerData, transferList: [port2] });
    this.worker.on('error', () => {}).unref();
    port1.unref();
  }

  answer(line) {
    const { receiveMessageOnPort } = require('worker_threads');
    Atomics.store(this.signal, 0, 0);
    const copy = new Uint8Array(line);
    this.port.postMessage(copy, [copy.buffer]);
    this.sleep();
    const { message } = receiveMessageOnPort(this.port);
    if (message.error === undefined) return message.line;
    this.end();
    throw Object.assign(ended('see its cause'), { cause: message.error, message: message.error });
  }

  // Until the thread has an answer, or doesn't count on any more.
  sleep() {
    for (let seen = null; Atomics.wait(this.signal, 0, 0, MOST_SILENCE) === 'timed-out';) {
      const count = Atomics.load(this.signal, 1);
      if (count === seen) {
        this.end();
        throw ended('its thread is silent');
      }
      seen = count;
    }
  }

  end() {
    this.isOver = true;
    this.worker.terminate();
  }
}

module.exports = { Service, Spawning, Pipes, Threaded };
