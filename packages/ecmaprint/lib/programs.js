'use strict';
// Where the program `ecmaprint` is.
const { accessSync, constants, statSync } = require('fs');
const { delimiter, join, resolve } = require('path');
const { PrintError } = require('./errors.js');

function isProgram(path) {
  try {
    accessSync(path, constants.X_OK);
    return statSync(path).isFile();
  } catch (error) {
    return false;
  }
}

// That of the package for this platform, which npm puts beside this one.
function ofPlatform() {
  try {
    return require.resolve(`ecmaprint-${process.platform}-${process.arch}/ecmaprint`);
  } catch (error) {
    return null;
  }
}

const ofRepository = () => join(__dirname, '../../../out/ecmaprint');
const onPath = () => (process.env.PATH || '').split(delimiter).filter(Boolean).map((folder) => join(folder, 'ecmaprint')).find(isProgram) || null;

// The path of the program: the one that is named, by the option or by ECMAPRINT, or the first that is there.
function programPath({ program } = {}) {
  for (const [given, by] of [[program, 'the option `program`'], [process.env.ECMAPRINT, 'the variable ECMAPRINT']]) {
    if (given && !isProgram(given)) throw new PrintError('no program', `${by} names ${given}, which is no program`);
    if (given) return resolve(given);
  }
  const found = [ofPlatform(), ofRepository(), onPath()].find((path) => path !== null && isProgram(path));
  if (found) return found;
  throw new PrintError('no program', `no ecmaprint is here: install ecmaprint-${process.platform}-${process.arch}, or name one by the option \`program\` or by ECMAPRINT`);
}

module.exports = { programPath };
