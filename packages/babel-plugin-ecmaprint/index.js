'use strict';
// Babel prints by ecmaprint in place of @babel/generator. What ecmaprint has no form for (Flow, proposals) Babel's generator prints, and a line
// tells of it; with `fallback: 'error'` it is an error.
const { Printer, PrintError } = require('ecmaprint');

// Options of Babel's generator that say nothing here.
const WITHOUT_EFFECT = [
  'retainLines', 'auxiliaryCommentBefore', 'auxiliaryCommentAfter', 'concise', 'jsonCompatibleStrings', 'recordAndTupleSyntaxType', 'topicToken',
];

const told = new Set();

// Each line once.
function tell(words) {
  if (told.has(words)) return;
  told.add(words);
  console.warn(`[ecmaprint] ${words}`);
}

const printers = new Map();

// One running program for all files.
function printerOf({ program, sync }) {
  const key = JSON.stringify([program, sync]);
  if (!printers.has(key)) printers.set(key, new Printer({ program, sync }));
  return printers.get(key);
}

const READ = {
  allowReturnOutsideFunction: true, allowAwaitOutsideFunction: true, allowNewTargetOutsideFunction: true, allowSuperOutsideMethod: true,
  allowUndeclaredExports: true, plugins: ['jsx'],
};

// Whether a text that the program doesn't vouch for, as one with `return` outside of functions, is read as this AST.
function isReadAs(text, { program }) {
  const { difference } = require('./same.js');
  try {
    return difference(program, require('@babel/parser').parse(text, { ...READ, sourceType: program.sourceType }).program) === null;
  } catch (error) {
    return false;
  }
}

function printed(printer, ast, options, code) {
  const result = printer.generate(ast, options, code);
  if (!result.isDerivation && !isReadAs(result.code, ast)) throw new PrintError('not a derivation', 'the text is read as another program', {});
  return result;
}

module.exports = function ecmaprint(api, { fallback = 'babel', onFallback = null, ...pluginOptions } = {}) {
  const printer = printerOf(pluginOptions);
  return {
    name: 'ecmaprint',
    generatorOverride(ast, options, code, generate) {
      const name = options.filename || 'a file';
      for (const each of WITHOUT_EFFECT) if (options[each]) tell(`the option \`${each}\` has no effect`);
      try {
        const result = printed(printer, ast, options, code);
        if (result.left.length > 0) tell(`${name}: ${result.left.length} comments have no place in the text`);
        return result;
      } catch (error) {
        if (!(error instanceof PrintError) || fallback !== 'babel') throw error;
        if (onFallback !== null) onFallback(error, options.filename);
        else tell(`${name} is printed by Babel: ${error.message.split('\n')[0]}`);
        return generate(ast, options, code);
      }
    },
  };
};

// Ends the programs.
module.exports.end = () => {
  printers.forEach((each) => each.end());
  printers.clear();
};
