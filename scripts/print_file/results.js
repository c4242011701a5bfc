'use strict';
// What becomes of a text: it is written, compared with what is there, or goes to standard output.
const { readFileSync } = require('fs');
const { makeFolderOf, write } = require('./outputs.js');

function isText(path, text) {
  try {
    return readFileSync(path, 'utf8') === text;
  } catch (error) {
    return false;
  }
}

// Whether a file would change: the one that its text would go to, or the source itself.
function wouldChange({ path, target }, { text }) {
  return path === '-' ? false : !isText(target === null ? path : target, text);
}

// What became of a file's texts.
function placed(file, { texts, told }, { check, write: overwrites, outDir }) {
  const [first] = texts;
  if (check) return { told, changes: wouldChange(file, first) };
  if (file.target === null) return { told, out: first.text };
  if (overwrites && isText(file.target, first.text)) return { told };
  if (outDir !== undefined) makeFolderOf(file.target);
  write(texts);
  return { told, isWritten: true };
}

module.exports = { placed };
