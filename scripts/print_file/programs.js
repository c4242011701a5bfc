'use strict';
// The program that prints: `ecmaprint`.
const { spawnSync } = require('child_process');
const { accessSync, constants, existsSync, statSync } = require('fs');
const { delimiter, join, relative } = require('path');
const { Fault } = require('./trees.js');

const TOP = join(__dirname, '../..');

// The program of this path, if it can be run.
function checked(path) {
  const found = path.includes('/') ? [path] : (process.env.PATH || '').split(delimiter).map((folder) => join(folder, path));
  const there = found.find((each) => existsSync(each) && statSync(each).isFile());
  if (there === undefined) throw new Fault(`${path}: no such program`);
  try {
    accessSync(there, constants.X_OK);
  } catch (error) {
    throw new Fault(`${path}: permission denied`);
  }
  return there;
}

// The program that a run asks for, or the repository's own, unproved or as `rt ci` leaves it. It is built where neither is there.
function programOf(options) {
  const given = options.program || process.env.ECMAPRINT;
  if (given) return checked(given);
  const path = join(TOP, 'out/ecmaprint'), proved = join(TOP, 'crates/ecmaprint/out/ecmaprint');
  if (existsSync(path)) return path;
  if (existsSync(proved)) return proved;
  console.error(`${relative('', path) || path} is not there yet, and is built now, which takes some minutes`);
  const built = spawnSync(join(TOP, 'scripts/build'), ['ecmaprint'], { stdio: ['ignore', 2, 2] });
  if (built.status !== 0) throw new Fault('no program to print with: scripts/build ecmaprint failed');
  return path;
}

module.exports = { programOf };
