'use strict';
// What the words of a run ask for, by one table of options, of which the help is made too.
const { Fault } = require('./trees.js');

const TARGETS = ['es3', 'es5', ...[2015, 2016, 2017, 2018, 2019, 2020, 2021, 2022].map((year) => `es${year}`), 'esnext'];
const KINDS_OF_COMMENTS = ['all', 'some', 'none'];
const MOST = 2 ** 32 - 1;

// A whole number that an option takes, and what is said of another.
const number = (least, most) => (word, InvalidArgumentError) => {
  if (/^\d+$/.test(word) && Number(word) >= least && Number(word) <= most) return Number(word);
  throw new InvalidArgumentError(`It takes a whole number from ${least} to ${most}.`);
};
const indentation = (word, InvalidArgumentError) => {
  if (word === 'tab') return '\t';
  if (!/^(?:\d|10)$/.test(word)) throw new InvalidArgumentError('It takes `tab`, or a number of blanks from 0 to 10.');
  return Number(word);
};
const extensions = (word) => word.split(',').map((each) => `.${each.trim().replace(/^\./, '')}`);

// Each option, by groups: its words, what it says, and the values that it takes or a function that reads them.
const OPTIONS = [
  ['Where the text goes', [
    ['-o, --output <OUT>', 'the text goes to this file, and not to standard output'],
    ['--out-dir <FOLDER>', 'each text goes to this folder, under its FILE\'s name; a folder\'s files keep their folders'],
    ['--out-ext <EXT>', 'the extension of the names there, as .min.js'],
    ['--write', 'each FILE gets its own text, with its comments unless --comments tells otherwise'],
    ['--check', 'nothing is written: the files that would change are listed, and the status is 1 if there is one'],
    ['--watch', 'goes on, and prints each FILE again that changes'],
    ['-j, --jobs <N>', 'so many processes work at once; as many as there are processors, a process for 8 files at most', number(1, 256)],
  ]],
  ['What a file is', [
    ['--ext <LIST>', 'which files of a folder are taken: .js,.mjs,.cjs,.jsx,.ts,.mts,.cts,.tsx unless it is given', extensions],
    ['--module', 'it is a module, if its own text doesn\'t tell', { conflicts: ['script'] }],
    ['--script', 'it is a script', { conflicts: ['module'] }],
    ['--ts', 'it is TypeScript, whatever its name', { conflicts: ['tsx'] }],
    ['--tsx', 'it is TypeScript with JSX', { conflicts: ['ts'] }],
  ]],
  ['What the text is like', [
    ['--comments [WHICH]', 'comments are printed: all, or some, which are the legal ones (/*!, @license, @preserve)', KINDS_OF_COMMENTS],
    ['--indent <N>', 'a level is so many blanks, or a `tab`; four blanks unless it is given', indentation],
    ['--end-of-line <END>', 'lines end with lf or crlf; lf unless it is given', ['lf', 'crlf']],
    ['--minify', 'blanks and line ends stand only where one is needed'],
    ['--omit-last-semi', 'with --minify the last semicolon is left out'],
    ['--max-line <N>', 'with --minify a line has at most N UTF-16 units if it can be ended', number(0, MOST)],
    ['--target <NAME>', 'literals and names are spelled for es3, es5, es2015 to es2022 or esnext; syntax stays as it is', TARGETS],
    ['--ascii-only', 'names and strings are ASCII'],
    ['--assert', '`assert` stands before the attributes of imports, where `with` stands else'],
    ['--inline-script', 'no string ends the script of a page of HTML'],
    ['--any', 'a tree that isn\'t well-formed is printed too'],
  ]],
  ['Maps', [
    ['--map', 'a source map (version 3): OUT.map, which the text\'s last line names; without a file for the text that line holds it'],
    ['--input-map <MAP>', 'the map of FILE itself, which the new one goes through; the one that FILE names unless it is given; or `no`'],
    ['--sources-content <WHICH>', 'whether the map holds the sources; `yes` unless it is given', ['yes', 'no']],
    ['--source-root <ROOT>', 'the map\'s `sourceRoot`'],
    ['--positions', 'each recorded position is a line on standard error'],
  ]],
  ['This program', [
    ['--program <PROGRAM>', 'the program `ecmaprint`; the variable ECMAPRINT, or out/ecmaprint, unless it is given'],
  ]],
];

const ABOUT = `Prints source files: Babel parses each, and \`ecmaprint\` prints its tree.

FILE is JavaScript, JSX too, or TypeScript if its name ends with .ts, .mts, .cts or .tsx. It may be a folder, of which all such
files are taken but those below node_modules and of names that begin with a dot; or a pattern, as 'src/**/*.ts'. \`-\` is standard input.`;

const AFTER = `
An array keeps the lines that it has in its file. A comment that has no place in the text goes before its statement. Several FILEs
need --out-dir, --write or --check. A file is written beside, and then takes its name, so none is lost or half there.

The status is 0; 1, with a line to standard error, if a file can't be read, parsed, printed or written (the others are printed all
the same), or if --check lists one; 2 for wrong words. If there is no program, scripts/build builds it first, in some minutes.
Debian packages: nodejs, node-babel7.`;

function commander() {
  try {
    return require('commander');
  } catch (error) {
    throw new Fault('no package commander here: apt-get install node-babel7');
  }
}

function optionOf({ Option, InvalidArgumentError }, [words, text, takes]) {
  const option = new Option(words, text);
  if (Array.isArray(takes)) option.choices(takes);
  else if (typeof takes === 'function') option.argParser((word) => takes(word, InvalidArgumentError));
  else if (takes) option.conflicts(takes.conflicts);
  return option;
}

// The command, with all of its options.
function command() {
  const { Command, ...parts } = commander();
  const made = new Command('scripts/print').argument('<FILE...>').usage('[OPTIONS] FILE ..').exitOverride().showSuggestionAfterError();
  made.configureOutput({ writeErr: () => {}, writeOut: () => {} });
  OPTIONS.flatMap(([, options]) => options).forEach((each) => made.addOption(optionOf(parts, each)));
  return made;
}

// A text in lines of this width, each but the first behind so many blanks.
function filled(text, width, blanks) {
  const lines = [''];
  for (const word of text.split(' ')) {
    const last = lines[lines.length - 1];
    if (last !== '' && last.length + 1 + word.length > width) lines.push(word);
    else lines[lines.length - 1] = last === '' ? word : `${last} ${word}`;
  }
  return lines.join(`\n${' '.repeat(blanks)}`);
}

function help() {
  const names = OPTIONS.map(([title, options]) => [`\n${title}:`, ...options.map(([words, text]) => (
    `  ${words.replace(/[<>]/g, '').padEnd(26)} ${filled(text, 92, 29)}`
  ))]);
  return [ABOUT, '\nusage: scripts/print [OPTIONS] FILE ..', ...names.flat(), `  ${'-h, --help'.padEnd(26)} this text`, AFTER].join('\n');
}

// The same words with a value for `--comments`: which of the next words is one, and which a file, commander doesn't tell.
function withValues(words) {
  const end = words.includes('--') ? words.indexOf('--') : words.length, made = [];
  for (let at = 0; at < words.length; at++) {
    const isBare = at < end && words[at] === '--comments';
    if (isBare) made.push(`--comments=${KINDS_OF_COMMENTS.includes(words[at + 1]) ? words[++at] : 'all'}`);
    else made.push(words[at]);
  }
  return made;
}

const wrong = (message) => Object.assign(new Fault(message), { status: 2 });

// What is wrong with options beside one another.
function conflictIn(given, files) {
  const targets = ['output', 'outDir', 'write'].filter((name) => given[name] !== undefined);
  const told = { output: '-o', outDir: '--out-dir', write: '--write' };
  if (targets.length > 1) return `${told[targets[0]]} and ${told[targets[1]]} don't go together`;
  if (given.outExt !== undefined && given.outDir === undefined) return '--out-ext goes with --out-dir';
  if (given.check && (given.map || given.positions || given.watch)) return '--check goes with none of --map, --positions, --watch';
  if (given.watch && targets.length === 0) return '--watch goes with -o, --out-dir or --write';
  if (given.write && given.map) return '--write and --map don\'t go together';
  if (files.includes('-') && (files.length > 1 || given.outDir !== undefined || given.write || given.check || given.watch)) {
    return '`-` stands alone, and goes with none of --out-dir, --write, --check, --watch';
  }
  return null;
}

// What the words say of a file, whatever its name says.
const OF_FILE = {
  module: { sourceType: 'module' }, script: { sourceType: 'script' }, ts: { typescript: true, jsx: false }, tsx: { typescript: true, jsx: true },
};

// The settings of a request, by the options that ask for them.
const CONFIG = {
  minify: 'minify', omitLastSemi: 'omit_last_semi', asciiOnly: 'ascii_only', assert: 'emit_assert_for_import_attributes',
  inlineScript: 'inline_script', target: 'target', maxLine: 'max_line', indent: 'indent',
};

// The options of a run, with the config of its requests.
function asked(words) {
  const made = command();
  try {
    made.parse(withValues(words), { from: 'user' });
  } catch (error) {
    if (!error.code || !error.code.startsWith('commander.')) throw error;
    throw wrong(error.message.replace(/^error: /, '').replace("missing required argument 'FILE'", 'no FILE'));
  }
  const given = made.opts(), files = made.args, conflict = conflictIn(given, files);
  if (conflict !== null) throw wrong(conflict);
  const ofFile = Object.assign({}, ...Object.keys(OF_FILE).filter((name) => given[name]).map((name) => OF_FILE[name]));
  const config = {};
  for (const name in CONFIG) if (given[name] !== undefined) config[CONFIG[name]] = given[name];
  if (given.endOfLine === 'crlf') config.new_line = '\r\n';
  const comments = given.comments || (given.write || given.check ? 'all' : 'none');
  return { ...given, files, ofFile, config, comments };
}

const USAGE = 'usage: scripts/print [OPTIONS] FILE .. (--help tells more)';

module.exports = { USAGE, asked, help };
