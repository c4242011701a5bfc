'use strict';
// The ways to the program: it is started once and ends with the process; where it dies, the call fails and the next one starts it anew.
const assert = require('node:assert');
const { execFileSync, spawnSync } = require('child_process');
const { chmodSync, mkdtempSync, rmSync, writeFileSync } = require('fs');
const { tmpdir } = require('os');
const { join } = require('path');
const { test, after } = require('node:test');
const { babel } = require('./support.js');
const { Printer, PrintError } = require('..');
const { programPath } = require('../lib/programs.js');

const folder = mkdtempSync(join(tmpdir(), 'ecmaprint-test-'));
after(() => rmSync(folder, { recursive: true }));
const ast = babel('a');

function script(name, text) {
  const path = join(folder, name);
  writeFileSync(path, `#!/bin/sh\n${text}\n`);
  chmodSync(path, 0o755);
  return path;
}

const PROGRAM = programPath();
const starts = join(folder, 'starts');
const counted = script('counted', `echo x >> ${starts}; exec ${PROGRAM}`);
const count = () => execFileSync('wc', ['-l', starts], { encoding: 'utf8' }).trim().split(' ')[0];

for (const sync of ['pipes', 'thread', 'spawn']) {
  test(`a call that waits, by ${sync}`, () => {
    writeFileSync(starts, '');
    const printer = new Printer({ program: counted, sync, isShort: false });
    for (let call = 0; call < 5; call++) assert.strictEqual(printer.printSync(ast).code, 'a;');
    assert.strictEqual(count(), sync === 'spawn' ? '5' : '1');
    printer.end();
    assert.strictEqual(printer.printSync(ast).code, 'a;');
    printer.end();
  });

  test(`a program that ends before it answers, by ${sync}`, { timeout: 300000 }, async () => {
    const failing = new Printer({ program: script(`failing-${sync}`, 'read line; exit 3'), sync });
    for (let call = 0; call < 3; call++) assert.throws(() => failing.printSync(ast), (error) => error instanceof PrintError && error.kind === 'program ended');
    await assert.rejects(failing.print(ast), { kind: 'program ended' });
    failing.end();
    // the first run dies, the second is well
    const mark = join(folder, `mark-${sync}`), once = new Printer({ program: script(`once-${sync}`, `[ -e ${mark} ] && exec ${PROGRAM}; touch ${mark}; exit 1`), sync });
    assert.throws(() => once.printSync(ast), { kind: 'program ended' });
    assert.strictEqual(once.printSync(ast).code, 'a;');
    once.end();
  });
}

test('a program that is killed while requests are under way', { timeout: 300000 }, async () => {
  const pid = join(folder, 'pid'), printer = new Printer({ program: script('killed', `echo $$ > ${pid}; exec ${PROGRAM}`) });
  assert.strictEqual((await printer.print(ast)).code, 'a;');
  const kill = () => process.kill(Number(execFileSync('cat', [pid], { encoding: 'utf8' })), 'SIGKILL');
  const calls = Array.from({ length: 20 }, () => printer.print(ast).then(() => 'printed', ({ kind }) => kind));
  kill();
  assert.ok((await Promise.all(calls)).every((each) => each === 'printed' || each === 'program ended'));
  // (a call may be asked of the dying program, and fails; the next one is well)
  const { code } = await printer.print(ast).catch(() => printer.print(ast));
  assert.strictEqual(code, 'a;');
  assert.strictEqual(printer.printSync(ast).code, 'a;');
  kill();
  assert.throws(() => printer.printSync(ast), { kind: 'program ended' });
  assert.strictEqual(printer.printSync(ast).code, 'a;');
  printer.end();
});

test('the program ends with the process, which it does not keep', { timeout: 300000 }, () => {
  for (const call of ['p.printSync(ast)', 'p.print(ast)', 'p.print(ast).then(() => p.printSync(ast))']) {
    const pid = join(folder, 'own-pid'), program = script('own', `echo $$ >> ${pid}; exec ${PROGRAM}`);
    writeFileSync(pid, '');
    const text = `const p = require(${JSON.stringify(join(__dirname, '..'))}), ast = ${JSON.stringify({ type: 'Identifier', name: 'a' })}; ${call}`;
    const ran = spawnSync(process.execPath, ['-e', text], { env: { ...process.env, ECMAPRINT: program }, timeout: 120000 });
    assert.strictEqual(ran.status, 0, String(ran.stderr));
    for (const each of execFileSync('cat', [pid], { encoding: 'utf8' }).trim().split('\n')) assertEnds(Number(each));
  }
});

function assertEnds(pid) {
  for (let tries = 0; tries < 300; tries++) {
    try {
      process.kill(pid, 0);
    } catch (error) {
      return;
    }
    execFileSync('sleep', ['0.1']);
  }
  assert.fail(`the program ${pid} goes on`);
}

test('where the program is', () => {
  assert.throws(() => new Printer({ program: join(folder, 'none') }), { kind: 'no program', reason: /the option `program` names/ });
  const asked = (variables) => spawnSync(process.execPath, ['-e', `try { console.log(require(${JSON.stringify(join(__dirname, '../lib/programs.js'))}).programPath()) } catch (error) { console.log(error.kind) }`], {
    encoding: 'utf8', env: { ...process.env, ...variables },
  }).stdout.trim();
  assert.strictEqual(asked({ ECMAPRINT: counted }), counted);
  assert.strictEqual(asked({ ECMAPRINT: join(folder, 'none') }), 'no program');
  assert.throws(() => new Printer({ sync: 'other' }), { kind: 'bad option' });
});
