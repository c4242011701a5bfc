'use strict';
// A process beside scripts/print: it gets files, and answers what became of each.
const { Printer } = require('./printer.js');
const { resultOf } = require('./workers.js');

let run = null, printer = null;
process.on('message', async ({ options, program, file }) => {
  if (file === undefined) {
    run = options;
    printer = new Printer(program);
  } else {
    process.send(await resultOf(file, run, printer));
  }
});
process.on('disconnect', () => printer.end());
