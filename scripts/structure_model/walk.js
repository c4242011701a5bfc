'use strict';
// Goes through a tree by the productions of docs/LEVELS.md: finds where it is no derivation, or puts parentheses there. Each file beside this one
// has the methods for an area of the tree; a method returns its node, with parentheses where they are put.
const { GOALS, levelOf } = require('./levels.js');
const { tag, paren, valueOf } = require('./nodes.js');
const { leftmost } = require('./edges.js');

const RESERVED = new Set((
  'break case catch class const continue debugger default delete do else enum export extends false finally for function if import in instanceof new null return '
  + 'super switch this throw true try typeof var void while with').split(' '));
// where an expression is called or has a member
const CALLED = new Set(['Callee', 'ChainBase', 'ChainLink']);
const STRICT = new Set('implements interface let package private protected public static yield'.split(' '));

// A context has the parameters of a goal, [In], [Yield], [Await] and [Return], whether the code is strict or a module's, and whether `yield` and `await`
// are barred as operators, as among parameters.
class Walk {
  // With `mends` parentheses are put; `minified` asks for the text without blanks, `annexB` for what browsers take besides (Annex B of ECMA-262).
  constructor({ mends = false, minified = false, annexB = false, strictWords = true } = {}) {
    Object.assign(this, { mends, minified, annexB, strictWords, faults: [] });
  }

  fault(kind, what) {
    this.faults.push({ kind, what });
  }

  // What the table has no productions for: TypeScript, and some proposals.
  scope(what) {
    this.fault('scope', what);
  }

  // An expression under a goal.
  expr(node, goal, context) {
    if (!GOALS[goal](levelOf(node))) {
      if (this.mends) return paren(this.inside(node, { ...context, in: true }));
      this.fault('level', `${tag(node)} as ${goal}`);
    }
    if (node.Bin && node.Bin.op === 'In' && !context.in) {
      if (this.mends) return paren(this.inside(node, { ...context, in: true }));
      this.fault('in', '`in` before `in` or `;`');
    }
    return this.inside(node, context, CALLED.has(goal));
  }

  optionalExpr(node, goal, context) {
    return node && this.expr(node, goal, context);
  }

  // An expression that doesn't begin so; parentheses are put round its leftmost node.
  exprNot(node, goal, context, begins, where) {
    const holder = { node: this.expr(node, goal, context) }, edge = leftmost(holder, 'node');
    if (!begins(edge)) return holder.node;
    if (this.mends) edge.holder[edge.key] = paren(edge.holder[edge.key]);
    else this.fault('lookahead', `${edge.first} first in ${where}`);
    return holder.node;
  }

  // A name (13.1): of a reference, a binding or a label.
  name(ident, context) {
    if (!ident) return;
    const { optional } = ident, sym = valueOf(ident.sym);
    if (optional) this.scope('optional name');
    if (RESERVED.has(sym)) this.fault('grammar', 'reserved word as a name');
    if (sym === 'yield' && (context.yield || context.strict)) this.fault('grammar', 'yield as a name');
    if (sym === 'await' && (context.await || context.module)) this.fault('grammar', 'await as a name');
    if (this.strictWords && context.strict && STRICT.has(sym)) this.fault('grammar', 'strict reserved word');
  }

  // One that is bound or assigned to (13.1.1, 13.1.3).
  bound(ident, context) {
    this.name(ident, context);
    if (ident && context.strict && ['eval', 'arguments'].includes(valueOf(ident.sym))) this.fault('grammar', 'eval or arguments as a target');
  }
}

for (const area of ['expressions', 'patterns', 'functions', 'statements', 'jsx', 'modules']) {
  Object.assign(Walk.prototype, require(`./${area}.js`));
}

module.exports = { Walk };
