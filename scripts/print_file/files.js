'use strict';
// Which files a run prints, and where their texts go.
const { existsSync, readdirSync, statSync } = require('fs');
const { dirname, extname, join, relative, resolve } = require('path');
const { Fault, faultOf } = require('./trees.js');

const EXTENSIONS = ['.js', '.mjs', '.cjs', '.jsx', '.ts', '.mts', '.cts', '.tsx'];

function isFolder(path) {
  try {
    return statSync(path).isDirectory();
  } catch (error) {
    return false;
  }
}

// The folders and the files below a folder, in order of their names: none of names that begin with a dot, none below node_modules, and no
// folder that is a link.
function below(folder) {
  let entries;
  try {
    entries = readdirSync(folder, { withFileTypes: true });
  } catch (error) {
    throw faultOf(folder, error);
  }
  const found = { folders: [folder], files: [] };
  for (const entry of entries.sort((one, other) => (one.name < other.name ? -1 : 1))) {
    const { name } = entry, path = join(folder, name);
    if (name.startsWith('.') || name === 'node_modules') continue;
    if (entry.isDirectory()) {
      const inner = below(path);
      found.folders.push(...inner.folders);
      found.files.push(...inner.files);
    } else if (!isFolder(path)) {
      found.files.push(path);
    }
  }
  return found;
}

// The files that a pattern matches, and the folder that all of them are below.
function matched(pattern) {
  const { hasMagic, sync } = require('glob');
  if (!hasMagic(pattern)) return null;
  return { root: require('glob-parent')(pattern), paths: sync(pattern, { nodir: true, ignore: '**/node_modules/**' }).sort() };
}

// What a word stands for: files, each with the folder that its name in another folder begins behind.
function namedBy(word, extensions) {
  if (word === '-') return [{ path: word, root: '.' }];
  if (isFolder(word)) {
    const paths = below(word).files.filter((path) => extensions.includes(extname(path)));
    if (paths.length === 0) throw new Fault(`${word}: no file in it ends with ${extensions.join(', ')}`);
    return paths.map((path) => ({ path, root: word }));
  }
  const found = existsSync(word) ? null : matched(word);
  if (found === null) return [{ path: word, root: dirname(word) }];
  if (found.paths.length === 0) throw new Fault(`${word}: no file matches`);
  return found.paths.map((path) => ({ path, root: found.root }));
}

// Where the text of a file goes; standard output is `null`.
function targetOf({ path, root }, { output, outDir, outExt, write }) {
  if (write) return path;
  if (outDir === undefined) return output === undefined ? null : output;
  const name = relative(root, path), renamed = outExt === undefined ? name : name.slice(0, name.length - extname(name).length) + outExt;
  return join(outDir, renamed);
}

// The files of a run, each with the place that its text goes to.
function filesOf(options) {
  const found = new Map();
  for (const word of options.files) {
    for (const each of namedBy(word, options.ext || EXTENSIONS)) {
      if (!found.has(resolve(each.path))) found.set(resolve(each.path), { path: each.path, target: targetOf(each, options) });
    }
  }
  const files = [...found.values()];
  checkTargets(files, options);
  return files;
}

// The folders in which a change may be one of a run's files.
function foldersOf(options, files) {
  const rootOf = (word) => (isFolder(word) ? word : (matched(word) || { root: dirname(word) }).root);
  const roots = options.files.filter((word) => isFolder(word) || !existsSync(word)).map(rootOf);
  const inner = roots.filter(isFolder).flatMap((root) => below(root).folders);
  return new Set([...inner, ...files.map(({ path }) => dirname(path))]);
}

// No two texts may go to one file, and none over a source without being asked to.
function checkTargets(files, { check, outDir, output, write }) {
  const told = (message) => Object.assign(new Fault(message), { status: 2 });
  if (files.length > 1 && !check && !write && outDir === undefined) {
    const nowhere = 'several files: --out-dir FOLDER, --write or --check says what becomes of their texts';
    throw told(output === undefined ? nowhere : 'several files don\'t go to one: --out-dir FOLDER takes them');
  }
  const sources = new Map();
  for (const { path, target } of write || outDir === undefined ? [] : files) {
    const whole = resolve(target);
    if (whole === resolve(path)) throw told(`${path}: its text would go over it; --write asks for that`);
    if (sources.has(whole)) throw told(`${sources.get(whole)} and ${path} would both go to ${target}`);
    sources.set(whole, path);
  }
}

module.exports = { filesOf, foldersOf };
