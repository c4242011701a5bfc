'use strict';
// The thread of a `Threaded` channel: it keeps a run of the program, and wakes the thread that asked.
const { workerData: { program, port, signal } } = require('worker_threads');
const { Service } = require('./channels.js');

const service = new Service(program);

function tell(message) {
  port.postMessage(message);
  Atomics.store(signal, 0, 1);
  Atomics.notify(signal, 0);
}

port.on('message', (line) => service.answer(line).then((answer) => tell({ line: answer.toString() }), (error) => tell({ error: error.message })));
// a sign of life for the one that sleeps
setInterval(() => Atomics.add(signal, 1, 1), 1000).unref();
