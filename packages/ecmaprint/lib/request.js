'use strict';
// From an AST to requests, and from their answers to a text. A request is a line: bytes of UTF-8 with a line feed at their end.
const { NoTree } = require('./tree_of/files.js');
const { flat } = require('./tree_of/flat.js');
const { pathTo, endless } = require('./tree_of/paths.js');
const { built } = require('./numbered_tree.js');
const { PrintError } = require('./errors.js');
const { checkOptions, configOf, isMinifying, wanted } = require('./options.js');
const { mapOf, composed } = require('./source_map.js');
const { standing } = require('./standing.js');

const MOST_LEVELS = 60; // of an AST: JSON may nest 127 deep, and a node is mostly two levels of it or three

const BEGIN = '{"tree":'; // of a request

// What is said of a refusal for which the program has no words.
const NO_WORDS = {
  'not a derivation': 'no parentheses make the text read as this AST',
  'too deep': 'parentheses are missing, and the AST nests too deep for the program to put them in',
};

// A text without the line end behind its last line.
const withoutLineEnd = (text) => (text.endsWith('\n') ? text.slice(0, text.endsWith('\r\n') ? -2 : -1) : text);

const STACK = /call stack|nests without an end/;

// An error of an AST that isn't printed, at its node.
function unsupported(error, ast, code) {
  if (error instanceof RangeError && STACK.test(error.message)) {
    const { isCycle, levels, path } = endless(ast);
    const reason = isCycle ? 'the AST holds itself here' : `the AST nests ${levels} levels deep, which is too deep`;
    return new PrintError('unsupported', reason, { path, code });
  }
  if (!(error instanceof NoTree)) return error;
  const node = error.node && (error.node._from || error.node), path = node && pathTo(ast, node);
  return new PrintError('unsupported', error.message, { path: path && [...path, ...error.steps], node, code });
}

// A call: an AST with its options, the tree that is made of it, and the requests for that. `isShort` says that the tree is asked for in the
// short form first: programs that don't read it refuse it, and get the whole one.
class Call {
  constructor(ast, options = {}, code, { isShort = true } = {}) {
    checkOptions(options);
    Object.assign(this, { ast, options, code, isShort });
    try {
      this.begin();
    } catch (error) {
      throw unsupported(error, ast, code);
    }
  }

  begin() {
    const { ast, options, code } = this;
    if (ast === null || typeof ast !== 'object' || typeof ast.type !== 'string') throw new NoTree('no AST: it has no `type`');
    this.stand = standing(ast);
    const isMinified = isMinifying(options, code);
    const { source, comments, levels } = built(this.stand.ast, {
      begin: BEGIN, wants: wanted(options), everywhere: options.sourceMaps ? 'places' : null, isMinified, isShort: this.isShort, code,
      keepsFunctionParentheses: !!options.retainFunctionParens, hasCrLf: options.endOfLine === 'crlf',
    });
    Object.assign(this, { source, comments, treeEnd: source.size });
    this.asked = { config: configOf(options, { asserts: source.asserts, isMinified }), parenthesize: options.parenthesize !== false, any: options.any === true };
    if (!isMinified) this.asked.source = source.line();
    if (options.sourceMaps) this.asked.positions = true;
    this.line = levels > MOST_LEVELS ? this.flattened() : this.nested();
  }

  // The request with its tree, which was written.
  nested() {
    const { source } = this;
    source.size = this.treeEnd;
    source.putAny(`,${this.settings()}\n`);
    return source.bytes.subarray(0, source.size);
  }

  // That with the flat form, for a tree that nests too deep for the other.
  flattened() {
    this.isFlat = true;
    return Buffer.from(`{"flat":${JSON.stringify(flat(this.tree()))},${this.settings()}\n`);
  }

  tree() {
    this.source.size = this.treeEnd;
    return JSON.parse(this.source.written().slice(BEGIN.length));
  }

  // All that a request has but its tree: the end of an object.
  settings() {
    const hasComments = this.comments && this.comments.records.length > 0, settings = JSON.stringify(this.asked).slice(1);
    return hasComments ? `"comments":${this.comments.written()},${settings}` : settings;
  }

  // Takes an answer's line. The result is the next request's line; nothing where none is needed.
  next(line) {
    this.answer = JSON.parse(line.toString());
    const { error, left } = this.answer;
    try {
      if (error) return this.mended(error);
      if (!this.comments || !left || !this.comments.lift(left)) return null;
      return this.isFlat ? this.flattened() : this.nested();
    } catch (fault) {
      throw unsupported(fault, this.ast, this.code);
    }
  }

  // The same in the whole form.
  inWholeForm() {
    this.source.release();
    Object.assign(this, { isShort: false, isFlat: false });
    this.begin();
    return this.line;
  }

  // What can be asked for in another way: a tree that nests too deep for JSON, a short form that isn't read, and a program that is no derivation.
  mended({ kind, message }) {
    if (!this.isFlat && /^bad/.test(kind) && /recursion limit/.test(message || '')) return this.flattened();
    if (this.isShort && kind === 'bad tree') return this.inWholeForm();
    if (this.options.any !== 'retry' || kind !== 'not a derivation' || this.asked.any) return null;
    Object.assign(this, { isUnsure: true });
    this.asked.any = true;
    return this.isFlat ? this.flattened() : this.nested();
  }

  result() {
    const { answer, options, code, source } = this;
    source.release();
    if (answer.error) throw this.refused(answer.error);
    const text = this.stand.textOf(withoutLineEnd(answer.code));
    const map = options.sourceMaps ? mapOf({ code: text, positions: this.stand.positionsOf(answer.positions) }, source, options, code) : null;
    const found = map && map.toJSON(), whole = found && options.inputSourceMap ? composed(found, options.inputSourceMap, options.sourceFileName) : found;
    return {
      code: text,
      map: whole,
      get rawMappings() { return map && map.raw(); },
      left: this.left(),
      isDerivation: !this.isUnsure,
    };
  }

  left() {
    if (!this.comments || !this.answer.left) return [];
    return this.comments.among(this.answer.left).map(({ kind, text, node }) => ({ kind, text, node: node._from || node }));
  }

  // An error of the program, at the node that its path through the tree leads to.
  refused({ kind, path: treePath = null, rule, message, cause, reason }) {
    const words = rule || reason || message || cause || NO_WORDS[kind] || kind;
    const node = treePath === null ? null : this.nodeOnPath(treePath), from = node && (node._from || node);
    return new PrintError(kind, words, { path: from && pathTo(this.ast, from), node: from, code: this.code, treePath });
  }

  // The innermost node on a path through the tree that has a place in the AST.
  nodeOnPath(steps) {
    const { source } = built(this.stand.ast, { everywhere: 'all' });
    let value = { Program: JSON.parse(source.written()) }, found = null;
    const enter = () => {
      for (;;) {
        if (value === null || typeof value !== 'object' || Array.isArray(value)) return;
        if (value.span && value.span.lo) found = value.span.lo;
        const names = Object.keys(value);
        if (names.length !== 1 || !/^[A-Z]/.test(names[0])) return;
        value = value[names[0]];
      }
    };
    enter();
    for (const step of steps) {
      if (value === null || typeof value !== 'object' || !(step in value)) break;
      value = value[step];
      enter();
    }
    return found === null ? null : source.nodeAt(found);
  }
}

module.exports = { Call };
