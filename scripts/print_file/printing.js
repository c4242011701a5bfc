'use strict';
// The printing of a file: what its text is, or why it has none.
const { byName, flat, textOf, titleOf, treeOf } = require('./trees.js');
const { Moves, listed, unsafeMinified, wanted, warningsOf, withLineEnds } = require('./comments.js');
const { layoutOf, withLines, withPlaces } = require('./comment_lines.js');
const { unparsed, unprinted } = require('./faults.js');
const { withMap } = require('./maps.js');

function parsedFile(options) {
  const text = textOf(options.path);
  try {
    const file = treeOf(text, { ...options, flat: true });
    return { ...file, comments: withLineEnds(file.comments, options) };
  } catch (error) {
    throw unparsed(error, text, options);
  }
}

// The text of a file, by as many requests as it takes until no comment that is left can be moved.
async function answered(file, options, printer) {
  const { config, any, comments: which, map, positions } = options, { source } = file;
  const request = { flat: flat(file.tree), source: source.text, config, any: !!any };
  const hasLines = which !== 'none' && !config.minify, moves = new Moves(file.tree), isMoved = (comment) => moves.has(comment);
  const first = wanted(file.comments, options), unsafe = first !== null && config.minify ? unsafeMinified(file.tree, first) : [];
  for (let comments = moves.next(first, unsafe) || first, next = comments; ; comments = next) {
    const asked = { ...request, ...(comments === null ? {} : { comments }), positions: !!(map || positions || hasLines) };
    const { error, code, positions: pairs = [], left: remaining } = await printer.answer(asked);
    if (error) throw unprinted(error, file, options, () => JSON.stringify(asked));
    const page = { text: code, positions: pairs }, left = remaining ? listed(remaining) : [];
    const put = hasLines ? withPlaces(page, { comments: listed(file.comments), left }, source) : [];
    const others = left.filter((comment) => !put.includes(comment));
    next = moves.next(comments, others);
    if (next !== null) continue;
    const told = { comments: listed(file.comments), left: put, isMoved };
    return { ...(hasLines ? withLines(page, told, source, layoutOf(config)) : page), warnings: warningsOf(others, source) };
  }
}

// The texts that a file's printing makes, each with the file that it goes to (none for standard output), and what is told on standard error.
async function printed({ path, target }, run, printer) {
  const options = { ...run, path, target, ...byName(path), ...run.ofFile };
  const file = parsedFile(options), { warnings, text, positions } = await answered(file, options, printer);
  const own = file.warnings.filter((warning) => !(options.any && /--any/.test(warning)));
  const told = [...own, ...warnings].map((warning) => `${titleOf(path)}:${warning}`);
  if (options.positions) told.push(...positions.map((each) => each.join(' ')));
  if (!options.map) return { texts: [{ path: target, text }], told };
  const { text: marked, map, warning } = withMap(text, positions, file, options);
  if (warning) told.push(warning);
  return { texts: [{ path: target, text: marked }, ...(map === null ? [] : [{ path: `${target}.map`, text: map }])], told };
}

module.exports = { printed };
