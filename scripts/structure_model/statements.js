'use strict';
// Statements and declarations, ECMA-262 14.
const { NOWHERE, tag, paren, valueOf } = require('./nodes.js');
const { BEGINNINGS, endsInIf, endsInDoWhile } = require('./edges.js');

const isPlainFunction = (decl) => !!decl && !!decl.Fn && !decl.Fn.function.is_async && !decl.Fn.function.is_generator;

const STATEMENTS = {
  Block: (walk, part, context) => walk.block(part, context),
  Empty: (walk, part) => part,
  Debugger: (walk, part) => part,
  Expr: (walk, part, context, within) => ({ ...part, expr: walk.exprNot(part.expr, 'Expression', within, BEGINNINGS.statement, 'a statement') }),
  With: (walk, part, context, within) => {
    if (context.strict) walk.fault('grammar', 'with in strict code');
    return { ...part, obj: walk.expr(part.obj, 'Expression', within), body: walk.body(part.body, context) };
  },
  Return: (walk, part, context, within) => {
    if (!context.return) walk.fault('grammar', 'return without [Return]');
    return { ...part, arg: walk.optionalExpr(part.arg, 'Expression', within) };
  },
  Break: (walk, part, context) => { walk.name(part.label, context); return part; },
  Continue: (walk, part, context) => { walk.name(part.label, context); return part; },
  If: (walk, part, context, within) => walk.ifStatement(part, context, within),
  Switch: (walk, part, context, within) => {
    if (part.cases.filter(({ test }) => !test).length > 1) walk.fault('grammar', 'a second default');
    const cases = part.cases.map((each) => ({ ...each, test: walk.optionalExpr(each.test, 'Expression', within), cons: walk.list(each.cons, context) }));
    return { ...part, discriminant: walk.expr(part.discriminant, 'Expression', within), cases };
  },
  Throw: (walk, part, context, within) => ({ ...part, arg: walk.expr(part.arg, 'Expression', within) }),
  Try: (walk, part, context) => walk.tryStatement(part, context),
  While: (walk, part, context, within) => ({ ...part, test: walk.expr(part.test, 'Expression', within), body: walk.body(part.body, context) }),
  DoWhile: (walk, part, context, within) => ({ ...part, test: walk.expr(part.test, 'Expression', within), body: walk.body(part.body, context) }),
  For: (walk, part, context, within) => ({
    ...part, init: walk.forInit(part.init, { ...context, in: false }), test: walk.optionalExpr(part.test, 'Expression', within),
    update: walk.optionalExpr(part.update, 'Expression', within), body: walk.body(part.body, context),
  }),
  ForIn: (walk, part, context, within) => ({
    ...part, left: walk.head(part.left, context, false, false), right: walk.expr(part.right, 'Expression', within), body: walk.body(part.body, context),
  }),
  ForOf: (walk, part, context, within) => {
    if (part.is_await && (!context.await || context.bars)) walk.fault('grammar', 'for await where await is no operator');
    const left = walk.head(part.left, context, true, part.is_await);
    return { ...part, left, right: walk.expr(part.right, 'Assignment', within), body: walk.body(part.body, context) };
  },
};

const statements = {
  block(part, context) {
    return { ...part, stmts: this.list(part.stmts, { ...context, top: false }) };
  },

  list(stmts, context) {
    stmts.forEach((each, at) => this.checkNext(each, stmts[at + 1]));
    return stmts.map((each) => this.stmt(each, context, true));
  },

  // The semicolon of an empty statement behind `do a while (b)` would be that one's own.
  checkNext(stmt, next) {
    if (stmt && next && next.Empty && endsInDoWhile(stmt)) this.fault('grammar', '; behind do while');
  },

  // A statement, as an item of a list, or where no declaration stands.
  stmt(stmt, context, isItem) {
    const kind = tag(stmt), part = stmt[kind];
    if (kind === 'Decl') return { Decl: this.decl(part, context, isItem) };
    if (kind === 'Labeled') return { Labeled: this.labeled(part, context, isItem) };
    return { [kind]: STATEMENTS[kind](this, part, context, { ...context, in: true }) };
  },

  // The statement of a loop, which is no declaration.
  body(stmt, context) {
    return this.stmt(stmt, context, false);
  },

  // In sloppy code a label may stand before a function, where an item may (14.13, B.3.1).
  labeled(part, context, isItem) {
    this.name(part.label, context);
    const mayDeclare = isItem && ((isPlainFunction(part.body.Decl) && !context.strict) || !!part.body.Labeled);
    return { ...part, body: this.stmt(part.body, context, mayDeclare) };
  },

  ifStatement(part, context, within) {
    let cons = this.branch(part.cons, context);
    if (part.alt && endsInIf(cons)) {
      if (this.mends) cons = { Block: { span: NOWHERE, stmts: [cons] } };
      else this.fault('else', 'an if without else before else');
    }
    return { ...part, test: this.expr(part.test, 'Expression', within), cons, alt: part.alt && this.branch(part.alt, context) };
  },

  // A branch of `if`: by B.3.3 a function, too.
  branch(stmt, context) {
    return this.stmt(stmt, context, this.annexB && !context.strict && isPlainFunction(stmt.Decl));
  },

  tryStatement(part, context) {
    const { handler, finalizer } = part;
    if (!handler && !finalizer) this.fault('grammar', 'try alone');
    return {
      ...part, block: this.block(part.block, context),
      handler: handler && { ...handler, param: handler.param && this.pattern(handler.param, context, false), body: this.block(handler.body, context) },
      finalizer: finalizer && this.block(finalizer, context),
    };
  },

  forInit(init, context) {
    if (!init) return init;
    if (init.VarDecl) return { VarDecl: this.variables(init.VarDecl, context) };
    return { Expr: this.exprNot(init.Expr, 'Expression', context, BEGINNINGS.head, 'the head of for') };
  },

  head(head, context, isOf, isAwait) {
    if (head.UsingDecl) return { UsingDecl: this.headUsing(head.UsingDecl, context, isOf) };
    if (head.VarDecl) return { VarDecl: this.headVariables(head.VarDecl, context, isOf) };
    const { Pat: pat } = head;
    if (pat.Ident) return { Pat: this.headName(pat, context, isOf, isAwait) };
    if (!pat.Expr) return { Pat: this.pattern(pat, context, true) };
    this.checkTarget(pat.Expr, context);
    const begins = isOf ? BEGINNINGS.headOfForOf : BEGINNINGS.head;
    return { Pat: { Expr: this.exprNot(pat.Expr, 'LeftHandSide', { ...context, in: true }, begins, 'the head of for') } };
  },

  // (B.3.5: `for (var a = b in c)`)
  headVariables(part, context, isOf) {
    const { decls, kind } = part;
    const isOld = this.annexB && !isOf && !context.strict && kind === 'Var' && decls.length === 1 && !!decls[0].name.Ident;
    if (decls.length !== 1 || (decls[0].init && !isOld)) this.fault('grammar', 'what the head of for declares');
    return { ...part, decls: decls.map((each) => this.declarator(each, { ...context, in: false }, true)) };
  },

  headName(pat, context, isOf, isAwait) {
    const { sym } = pat.Ident.id;
    this.bound(pat.Ident.id, context);
    if (!isOf || (sym !== 'let' && (sym !== 'async' || isAwait))) return pat;
    if (this.mends) return { Expr: paren({ Ident: pat.Ident.id }) };
    this.fault('lookahead', `${sym} of`);
    return pat;
  },

  // `using a = b` (proposal): names, each with a value; in a block, a function or a module, and `await using` where `await a` may stand.
  using(part, context) {
    if (context.top) this.fault('grammar', 'using in a script');
    this.checkUsing(part, context);
    if (part.decls.some(({ init }) => !init)) this.fault('grammar', 'using without a value');
    return { ...part, decls: part.decls.map((each) => this.declarator(each, context, false)) };
  },

  // `for (using a of b)`, where no name is `of`; `for (await using of of b)` is one
  headUsing(part, context, isOf) {
    this.checkUsing(part, context);
    const [{ name, init }, ...others] = part.decls;
    if (!isOf || init || others.length) this.fault('grammar', 'what the head of for declares');
    if (!part.is_await && name.Ident && name.Ident.id.sym === 'of') this.fault('grammar', 'using of');
    return { ...part, decls: part.decls.map((each) => this.declarator(each, { ...context, in: false }, true)) };
  },

  checkUsing(part, context) {
    if (part.is_await && (!context.await || context.bars)) this.fault('grammar', 'await using where await is no operator');
    if (part.decls.length === 0 || part.decls.some(({ name }) => !name.Ident)) this.fault('grammar', 'using of a pattern');
    if (part.decls.some(({ name }) => name.Ident && valueOf(name.Ident.id.sym) === 'await')) this.fault('grammar', 'using await');
  },

  variables(part, context) {
    if (part.declare) this.scope('declare');
    if (part.kind === 'Const' && part.decls.some(({ init }) => !init)) this.fault('grammar', 'const without a value');
    return { ...part, decls: part.decls.map((each) => this.declarator(each, context, false)) };
  },

  declarator(part, context, isHead) {
    const { name, init, definite } = part;
    if (definite) this.scope('definite');
    if (!isHead && !init && (name.Array || name.Object)) this.fault('grammar', 'pattern without a value');
    return { ...part, name: this.pattern(name, context, false), init: this.optionalExpr(init, 'Assignment', context) };
  },

  decl(decl, context, isItem) {
    const kind = tag(decl), part = decl[kind];
    if (!isItem && !(kind === 'Var' && part.kind === 'Var')) this.fault('grammar', 'a declaration as a statement');
    if (kind === 'Using') return { Using: this.using(part, { ...context, in: true }) };
    if (!['Var', 'Fn', 'Class'].includes(kind)) {
      this.scope(kind);
      return decl;
    }
    if (kind === 'Var') return { Var: this.variables(part, { ...context, in: true }) };
    if (part.declare) this.scope('declare');
    this.bound(part.ident, kind === 'Class' ? { ...context, strict: true } : context);
    return kind === 'Fn' ? { Fn: { ...part, function: this.function(part.function, context) } } : { Class: { ...part, class: this.class(part.class, context) } };
  },
};

module.exports = statements;
