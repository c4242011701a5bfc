'use strict';
// The packages as npm installs them: in an empty folder, without a network, as the pages say.
const assert = require('node:assert');
const { execFileSync, spawnSync } = require('child_process');
const { existsSync, mkdtempSync, readFileSync, readdirSync, rmSync, writeFileSync } = require('fs');
const { tmpdir } = require('os');
const { join } = require('path');
const { test } = require('node:test');
const { programPath } = require('../lib/programs.js');

const TOP = join(__dirname, '../../..');
const hasNpm = spawnSync('npm', ['--version']).status === 0;

test('the tarballs print in an empty folder', { skip: hasNpm ? false : 'no npm here', timeout: 600000 }, () => {
  const folder = mkdtempSync(join(tmpdir(), 'ecmaprint-empty-'));
  try {
    const made = execFileSync(join(TOP, 'scripts/dev/pack'), [programPath()], { encoding: 'utf8' }).trim().split('\n').map((path) => join(TOP, path));
    assert.strictEqual(made.length, 5);
    const few = made.filter((path) => /\/ecmaprint-(?:\d|linux)/.test(path));
    execFileSync('npm', ['install', '--offline', '--no-audit', '--no-fund', ...few], { cwd: folder, stdio: ['ignore', 'ignore', 'inherit'] });
    assert.deepStrictEqual(readdirSync(join(folder, 'node_modules')).filter((name) => name[0] !== '.'), ['ecmaprint', 'ecmaprint-linux-x64']);
    const text = "const { printSync } = require('ecmaprint'), a = { type: 'Identifier', name: 'a' };\nconsole.log(printSync({ type: 'UnaryExpression', operator: '-', argument: { type: 'UnaryExpression', operator: '-', argument: a } }).code);";
    writeFileSync(join(folder, 'a.js'), text);
    const { NODE_PATH, ECMAPRINT, ...bare } = process.env;
    assert.strictEqual(execFileSync(process.execPath, ['a.js'], { cwd: folder, encoding: 'utf8', env: bare }), '- -a\n');
    assert.ok(!existsSync(join(folder, 'node_modules/ecmaprint/test')));
  } finally {
    rmSync(folder, { recursive: true });
  }
});

test('the lines of the pages are run', () => {
  const blocks = ['packages/ecmaprint/README.md', 'README.md'].flatMap((name) => [...readFileSync(join(TOP, name), 'utf8').matchAll(/```js\n([^]*?)```/g)].map(([, lines]) => lines));
  assert.ok(blocks.length > 0);
  for (const lines of blocks) {
    const ran = spawnSync(process.execPath, ['-e', lines], { encoding: 'utf8', env: { ...process.env, NODE_PATH: `${join(TOP, 'packages')}:${process.env.NODE_PATH || ''}` } });
    assert.strictEqual(ran.stderr, '');
    assert.match(ran.stdout, /^const a=1;\s*\/\/ one\s*\S*\n/);
  }
});
