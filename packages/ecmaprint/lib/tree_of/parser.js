'use strict';
// Babel's parser, as `apt-get install node-babel7` gives it, or by the path in BABEL_PARSER.
const { existsSync } = require('fs');
const { Fault } = require('./files.js');

const PATHS = [process.env.BABEL_PARSER, '@babel/parser', '/usr/share/nodejs/@babel/parser', '/usr/lib/nodejs/@babel/parser'];

function parser() {
  for (const path of PATHS) {
    if (!path || (path.startsWith('/') && !existsSync(path))) continue;
    try {
      return require(path);
    } catch (error) {
      // (another may be there)
    }
  }
  throw new Fault('no Babel here: apt-get install node-babel7');
}

const PROPOSALS = ['decoratorAutoAccessors', 'explicitResourceManagement', 'importAssertions', 'exportDefaultFrom', 'regexpUnicodeSets', 'importReflection'];

// TypeScript's old decorators stand before parameters too.
function plugins({ typescript, declarations, jsx }) {
  const all = jsx ? [...PROPOSALS, 'jsx'] : PROPOSALS;
  return typescript
    ? ['decorators-legacy', ['typescript', { dts: declarations, disallowAmbiguousJSXLike: false }], ...all]
    : [['decorators', { decoratorsBeforeExport: true }], ...all];
}

// With `recovers` what has no bearing on the tree, as a name that is declared twice, is listed in the file's `errors`.
function parsed(text, options) {
  const { sourceType = 'unambiguous' } = options, file = parsedAs(sourceType, text, options);
  // a file that may be either is read as a module first, in which `<!--` and `-->` are operators: in a script they begin comments
  const isReadWrongly = sourceType === 'unambiguous' && file.program.sourceType === 'script' && /<!--|-->/.test(text);
  return isReadWrongly ? parsedAs('script', text, options) : file;
}

function parsedAs(sourceType, text, options) {
  return parser().parse(text, {
    sourceType,
    plugins: plugins(options),
    createParenthesizedExpressions: true,
    allowReturnOutsideFunction: true,
    allowSuperOutsideMethod: true,
    allowNewTargetOutsideFunction: true,
    allowUndeclaredExports: true,
    attachComment: false,
    errorRecovery: !!options.recovers,
    tokens: true,
  });
}

// What an expression is alone; nothing where it is none.
function expressionOf(text) {
  try {
    return parser().parseExpression(text, { plugins: ['jsx'] });
  } catch (error) {
    return null;
  }
}

module.exports = { parsed, expressionOf, PROPOSALS };
