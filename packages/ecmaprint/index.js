'use strict';
// Prints ASTs of Babel and of ESTree by the program `ecmaprint`.
const { Call } = require('./lib/request.js');
const { Service, Spawning, Pipes, Threaded } = require('./lib/channels.js');
const { PrintError } = require('./lib/errors.js');
const { programPath } = require('./lib/programs.js');
const { generatorOptions, generatorResult } = require('./lib/generate.js');

const CHANNELS = { pipes: Pipes, thread: Threaded, spawn: Spawning };

// A running program. `sync` says by which way `printSync` asks it: `pipes` (Unix), `thread`, or `spawn`, a process a call. With `isShort` trees are
// sent without the members that have their defaults. A program that doesn't read such a tree is asked again with all members, as from then on.
class Printer {
  constructor({ program, isShort = true, sync = process.env.ECMAPRINT_SYNC || (process.platform === 'win32' ? 'thread' : 'pipes') } = {}) {
    if (!(sync in CHANNELS)) throw new PrintError('bad option', `\`sync\` is one of ${Object.keys(CHANNELS).join(', ')}`);
    Object.assign(this, { program: programPath({ program }), sync, service: null, channel: null, isShort });
  }

  async print(ast, options, code) {
    const call = new Call(ast, options, code, this);
    for (let line = call.line; line !== null;) {
      if (this.service === null || this.service.isOver) this.service = new Service(this.program);
      line = call.next(await this.service.answer(line));
    }
    return this.resultOf(call);
  }

  printSync(ast, options, code) {
    const call = new Call(ast, options, code, this);
    for (let line = call.line; line !== null;) {
      if (this.channel === null || this.channel.isOver) this.channel = new CHANNELS[this.sync](this.program);
      line = call.next(this.channel.answer(line));
    }
    return this.resultOf(call);
  }

  resultOf(call) {
    if (!call.isShort) this.isShort = false;
    return call.result();
  }

  // As the default export of `@babel/generator`.
  generate(ast, options, code) {
    return generatorResult(this.printSync(ast, generatorOptions(options, code), code));
  }

  // Ends the program. A later call starts it anew.
  end() {
    for (const each of [this.service, this.channel]) if (each !== null) each.end();
    Object.assign(this, { service: null, channel: null });
  }
}

let shared = null;

function printer() {
  if (shared === null) shared = new Printer();
  return shared;
}

module.exports = {
  Printer,
  PrintError,
  print: async (ast, options, code) => printer().print(ast, options, code),
  printSync: (ast, options, code) => printer().printSync(ast, options, code),
  generate: (ast, options, code) => printer().generate(ast, options, code),
  end() {
    if (shared !== null) shared.end();
    shared = null;
  },
};
