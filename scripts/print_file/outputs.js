'use strict';
// Files that are written whole, or not at all.
const {
  chmodSync, closeSync, existsSync, fsyncSync, mkdirSync, openSync, realpathSync, renameSync, statSync, unlinkSync, writeFileSync,
} = require('fs');
const { dirname, join } = require('path');
const { Fault, faultOf } = require('./trees.js');

// The file that a path leads to, through links.
const real = (path) => (existsSync(path) ? realpathSync(path) : path);

// Whether a path leads to what isn't a file, as to a pipe: it takes its text as it comes.
const isStream = (path) => existsSync(path) && !statSync(path).isFile() && !statSync(path).isDirectory();

let count = 0;

// A file beside one, with the text that this one gets.
function beside(path, text) {
  const made = join(dirname(path), `.printed.${process.pid}.${count++}`);
  let file = null;
  try {
    file = openSync(made, 'wx', 0o666);
    writeFileSync(file, text);
    fsyncSync(file);
    if (existsSync(path)) chmodSync(made, statSync(path).mode & 0o7777);
    return made;
  } catch (error) {
    if (file !== null) unlinkSync(made);
    throw error;
  } finally {
    if (file !== null) closeSync(file);
  }
}

const REASONS = {
  ENOSPC: 'no room is left on its disk', EDQUOT: 'no room is left on its disk', EFBIG: 'it would be larger than a file may be here',
  EROFS: 'nothing can be written there',
};

function faultAt(path, error) {
  if (error instanceof Fault) return error;
  if (error.code === 'ENOENT') return new Fault(`${path}: no such folder: ${dirname(path)}`);
  return error.code in REASONS ? new Fault(`${path}: ${REASONS[error.code]}`) : faultOf(path, error);
}

// Writes texts to their files, all of them or, where one can't be written, none.
function write(texts) {
  const fresh = [];
  let at = null;
  try {
    for (const { path, text } of texts) {
      at = path;
      if (existsSync(path) && statSync(path).isDirectory()) throw new Fault(`${path}: it is a folder`);
      if (isStream(path)) writeFileSync(path, text);
      else fresh.push([beside(real(path), text), real(path)]);
    }
    for (const [made, path] of fresh.splice(0)) {
      at = path;
      try {
        renameSync(made, path);
      } catch (error) {
        fresh.push([made, path]);
        throw error;
      }
    }
  } catch (error) {
    fresh.forEach(([made]) => unlinkSync(made));
    throw faultAt(at, error);
  }
}

// Makes the folder of a file.
function makeFolderOf(path) {
  try {
    mkdirSync(dirname(path), { recursive: true });
  } catch (error) {
    throw faultOf(dirname(path), error.code === 'EEXIST' ? Object.assign(error, { message: 'it is no folder' }) : error);
  }
}

module.exports = { makeFolderOf, write };
