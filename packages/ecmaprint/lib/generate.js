'use strict';
// The options and the result of `@babel/generator`.

const KEPT = /@license|@preserve/;

// The options of a call, by those of Babel's generator. Babel's own (`retainLines`, `concise`, `auxiliaryCommentBefore` ..) say nothing here.
function generatorOptions(options, code) {
  const { minified, compact, comments, shouldPrintComment, sourceMaps, sourceFileName, sourceRoot, inputSourceMap, retainFunctionParens, jsescOption } = options || {};
  const areWanted = comments === undefined || comments === null || comments;
  const wants = shouldPrintComment || (minified ? () => areWanted : (text) => areWanted || KEPT.test(text));
  const isShort = !!minified || compact === true || (compact === 'auto' && typeof code === 'string' && code.length > 500000);
  return {
    minify: isShort,
    shouldPrintComment: wants,
    sourceMaps: !!sourceMaps,
    sourceFileName: sourceFileName ? sourceFileName.replace(/\\/g, '/') : undefined,
    sourceRoot: sourceRoot || undefined,
    inputSourceMap: inputSourceMap || undefined,
    retainFunctionParens: !!retainFunctionParens,
    asciiOnly: jsescOption && jsescOption.minimal === false ? true : undefined,
    any: 'retry',
  };
}

// A result as Babel's generator has it; `rawMappings` are made where they are read.
function generatorResult(printed) {
  const { code, map, left, isDerivation } = printed;
  return { code, map, decodedMap: undefined, get rawMappings() { return printed.rawMappings || undefined; }, left, isDerivation };
}

module.exports = { generatorOptions, generatorResult };
