'use strict';
// Source files: what the name of one says, its text, and what is said of a fault in it.
const { readFileSync } = require('fs');

// What the words say of a source text, whatever its file's name says.
const FLAGS = {
  '--module': { sourceType: 'module' },
  '--script': { sourceType: 'script' },
  '--ts': { typescript: true, jsx: false },
  '--tsx': { typescript: true, jsx: true },
  '--nowhere': { nowhere: true },
};

// What the name of a file says of its text.
function byName(path) {
  const [, module, typescript, x] = /\.([cm]?)(?:j|(t))s(x?)$/.exec(path) || [];
  return {
    typescript: !!typescript, jsx: !typescript || !!x, declarations: /\.d\.[cm]?ts$/.test(path), ...(module === 'm' ? { sourceType: 'module' } : {}),
  };
}

// A fault of the input, for which a line is enough.
class Fault extends Error {}

// What no tree has: at a node of an AST, or at a member of one, to which these steps lead.
class NoTree extends Error {
  constructor(message, node = null, steps = []) {
    super(message);
    Object.assign(this, { node, steps, loc: node && node.loc && node.loc.start ? node.loc.start : null });
  }
}

const titleOf = (path) => (path === '-' ? 'standard input' : path);

const REASONS = { ENOENT: 'no such file', EISDIR: 'it is a folder', EACCES: 'permission denied', ENOTDIR: 'no such file' };

// A fault of a file, or of a program that can't be run.
const faultOf = (path, error) => new Fault(`${titleOf(path)}: ${REASONS[error.code] || error.message}`);

function bytesOf(path) {
  try {
    return readFileSync(path === '-' ? 0 : path);
  } catch (error) {
    throw faultOf(path, error);
  }
}

// The text of a file, without the byte order mark that it may begin with: swc's parser leaves it out, too.
function textOf(path) {
  const bytes = bytesOf(path), text = bytes.toString('utf8'), again = Buffer.from(text);
  if (!bytes.equals(again)) {
    const at = again.findIndex((byte, index) => byte !== bytes[index]);
    const line = 1 + bytes.subarray(0, at).filter((byte) => byte === 10).length;
    throw new Fault(`${titleOf(path)}:${line}: byte ${at + 1} is not UTF-8`);
  }
  return text.replace(/^\ufeff/, '');
}

// The same error with the name of its file, where a line is enough.
function located(error, path) {
  if (error instanceof Fault) return error;
  if (error.loc) {
    const message = error.message.replace(/ \(\d+:\d+\)$/, '');
    return new Fault(`${titleOf(path)}:${error.loc.line}:${error.loc.column + 1}: ${message}`);
  }
  if (error instanceof NoTree) return new Fault(`${titleOf(path)}: ${error.message}`);
  if (error instanceof RangeError && /call stack/.test(error.message)) return new Fault(`${titleOf(path)}: it nests too deep for the stack here (ulimit -s)`);
  if (/@babel\/parser/.test(error.stack)) return new Fault(`${titleOf(path)}: Babel's parser fails: ${error.message}`);
  return error;
}

module.exports = { FLAGS, Fault, NoTree, byName, faultOf, textOf, located, titleOf };
