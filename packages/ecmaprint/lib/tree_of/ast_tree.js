'use strict';
// The tree of an AST without its source text: one of Babel or ESTree that may have been changed, moved and made by other tools.
const { NoTree } = require('./files.js');
const { check, isNode } = require('./check.js');
const { babelOf } = require('./estree.js');
const { mended } = require('./ast_parentheses.js');
const { deepest } = require('./levels.js');
const { NOWHERE } = require('./source.js');
const { attributeRawOf, decoded, rawOf, referenced } = require('./spellings.js');
const { Tree, MOST_LEVELS } = require('./tree.js');

// What stands for a number that no literal spells, as plugins make them.
const isUnusual = ({ type, value }) => (type === 'NumericLiteral' ? !(value > 0 || Object.is(value, 0)) && value !== null : type === 'BigIntLiteral' && value[0] === '-');

// A string that is printed as it is spelled, with its spelling or without.
const PLAIN_STRING = /^"[\w $!#%()*+,\-./:;<=>?@[\]^{|}~]*"$/;

class AstTree extends mended(Tree) {
  // Positions are those of the AST, from 1, where `positions` is 'own'; else none.
  constructor({ positions = 'own', nowhere = false, isShort = false } = {}) {
    super('', { nowhere: nowhere || positions === 'none', splits: true, isShort });
  }

  span(node) {
    const [start, end] = Array.isArray(node.range) ? node.range : [node.start, node.end];
    return this.nowhere || !Number.isInteger(start) || !Number.isInteger(end) ? this.unplaced() : { lo: start + 1, hi: end + 1 };
  }

  between() {
    return this.unplaced();
  }

  dots() {
    return NOWHERE;
  }

  nameSpan(name, start) {
    return this.span({ start, end: start + name.length });
  }

  areOne(name, local) {
    return name.type === local.type && name.name === local.name && name.value === local.value;
  }

  string(node) {
    const raw = rawOf(node), isNone = raw === null || (this.isShort && PLAIN_STRING.test(raw));
    this.warnOfSurrogate(node, node.value);
    this.putString(node.value, isNone ? null : raw);
    this.putEnd(node, '}');
  }

  // Babel's value of a directive is its spelling.
  directiveString(node) {
    const { value, extra } = node;
    const isGiven = extra && typeof extra.raw === 'string' && (extra.rawValue === undefined || extra.rawValue === value);
    const quote = /(^|[^\\])(\\\\)*"/.test(value) ? "'" : '"', raw = isGiven ? extra.raw : `${quote}${value}${quote}`;
    this.putString(decoded(raw), raw);
    this.putEnd(node, '}');
  }

  literal(node) {
    if (!isUnusual(node)) return super.literal(node);
    this.unusualNumber(node);
    return true;
  }

  // -1 and -0 by a minus, NaN and Infinity by their names.
  unusualNumber(node) {
    const { type, value } = node, place = this.at(node), nowhere = this.placed(this.unplaced()), name = (sym, at) => `{"Ident":{"sym":"${sym}"${at}${this.no(',"optional":')}}}`;
    if (Number.isNaN(value)) return this.put(name('NaN', place));
    this.put('{"Unary":{"op":"Minus","arg":');
    if (type === 'BigIntLiteral') this.literal({ type, value: value.slice(1) });
    else if (value === -Infinity) this.put(name('Infinity', nowhere));
    else this.literal({ type, value: Math.abs(value) });
    return this.put(`${place}}}`);
  }

  // (JSON has no infinite numbers: there the value of `1e400` is null)
  number(node) {
    const raw = rawOf(node), { value } = node, place = this.at(node);
    if (raw !== null) this.numberAt(place, raw, value === null ? Infinity : value);
    else if (value === Infinity) this.numberAt(place, '1e999', Infinity);
    else if (value === null || isUnusual(node)) throw new NoTree(`a number can't be ${Object.is(value, -0) ? '-0' : value} here`, node, ['value']);
    else this.numberAt(place, String(value), value, { isSpelled: false });
  }

  negativeNumber(node) {
    const { argument } = node, raw = rawOf(argument), { value } = argument;
    if (value === null || value === Infinity || isUnusual(argument)) throw new NoTree(`a number can't be ${value} here`, argument, ['value']);
    this.numberAt(this.at(node), raw === null ? String(value) : raw, value, { isNegative: true });
  }

  bigInteger(node) {
    const raw = rawOf(node);
    this.bigIntegerAt(this.at(node), this.bigSpelling(node, raw), raw);
  }

  negativeBigInteger(node) {
    const { argument } = node;
    this.bigIntegerAt(this.at(node), this.bigSpelling(argument, rawOf(argument)), null, true);
  }

  bigSpelling(node, raw) {
    if (!/^(?:0[xob])?[\da-f_]+$/i.test(node.value)) throw new NoTree(`\`${node.value}\` is no big integer`, node, ['value']);
    return raw || `${node.value}n`;
  }

  jsxString(node) {
    const given = attributeRawOf(node), raw = given === null ? `"${referenced(node.value, /[&"]/g)}"` : given;
    this.putString(node.value, raw);
    this.putEnd(node, '}');
  }

  jsxText(node) {
    const given = rawOf(node), spelled = given === null ? referenced(node.value, /[&<>{}]/g) : referenced(given, /[>}]/g);
    this.putString(spelled, spelled);
    this.putEnd(node, '}');
  }

  // (whether `new A` has no arguments, or an empty list, no AST tells)
  isBareNew() {
    return false;
  }
}

// The program of an AST: of a file, as Babel has it, or of a program.
function programIn(value) {
  const program = isNode(value) && value.type === 'File' ? value.program : value;
  if (!isNode(program) || program.type !== 'Program') throw new NoTree('no AST of a program: its `type` is not "Program"', isNode(program) ? program : null);
  return program;
}

// Where a tree can't be written: the node that is gone through then.
function faultyNode(source, program) {
  let here = null;
  for (const name of ['expr', 'stmt', 'pat', 'type', 'moduleItem', 'classMember', 'property', 'jsxChild']) {
    const method = source[name];
    source[name] = (node) => {
      here = node;
      return method.call(source, node);
    };
  }
  try {
    source.program({ program });
  } catch (error) {
    // (it is known)
  }
  return here;
}

// Writes a program that was checked. Errors of nodes that lack what their types have tell which.
function write(source, program) {
  try {
    source.program({ program });
  } catch (error) {
    if (!(error instanceof TypeError)) throw error;
    const node = faultyNode(source, program);
    throw new NoTree(`${node ? node.type : 'Program'} lacks a part that its type has: ${error.message}`, node);
  }
}

// The tree of an AST, with warnings of what is refused.
function treeOfAst(value, options) {
  const source = new AstTree(options), program = babelOf(programIn(value), { marks: true });
  check(program);
  write(source, program);
  const tree = JSON.parse(source.written());
  const { levels } = deepest(tree, MOST_LEVELS);
  if (levels > MOST_LEVELS && !options.flat) source.warn(null, `the JSON nests ${levels} levels deep, past the ${MOST_LEVELS} that ecmagen reads`);
  return { tree, warnings: source.warnings };
}

module.exports = { AstTree, write, programIn, treeOfAst };
