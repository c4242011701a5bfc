'use strict';
// Statements and declarations.

const KINDS = { var: 'Var', let: 'Let', const: 'Const' };

// What a node is that holds an expression, and perhaps a statement.
const ofExpression = (begin, part) => (tree, node) => {
  tree.put(begin);
  tree.expr(node[part]);
  tree.putEnd(node, '}}');
};

const ofBody = (begin, part) => (tree, node) => {
  tree.put(begin);
  tree.expr(node[part]);
  tree.put(',"body":');
  tree.stmt(node.body);
  tree.putEnd(node, '}}');
};

// An object with one part that may be missing.
const ofOptional = (begin, member, part, method) => (tree, node) => {
  tree.put(begin);
  if (node[part]) {
    tree.put(member);
    tree[method](node[part]);
    tree.putEnd(node, '}}');
  } else tree.put(`${(tree.none(`,${member}`) + tree.at(node)).slice(1)}}}`);
};

const STATEMENTS = {
  BlockStatement: (tree, node) => {
    tree.put('{"Block":');
    tree.block(node);
    tree.put('}');
  },
  EmptyStatement: (tree, node) => tree.put(`{"Empty":{${tree.only(node)}}}`),
  DebuggerStatement: (tree, node) => tree.put(`{"Debugger":{${tree.only(node)}}}`),
  ExpressionStatement: (tree, node) => {
    tree.put('{"Expr":');
    tree.expressionStatement(node);
    tree.put('}');
  },
  WithStatement: ofBody('{"With":{"obj":', 'object'),
  ReturnStatement: ofOptional('{"Return":{', '"arg":', 'argument', 'expr'),
  ThrowStatement: ofExpression('{"Throw":{"arg":', 'argument'),
  LabeledStatement: (tree, node) => {
    tree.put('{"Labeled":{"label":');
    tree.ident(node.label);
    tree.put(',"body":');
    tree.stmt(node.body);
    tree.putEnd(node, '}}');
  },
  BreakStatement: ofOptional('{"Break":{', '"label":', 'label', 'ident'),
  ContinueStatement: ofOptional('{"Continue":{', '"label":', 'label', 'ident'),
  IfStatement: (tree, node) => {
    tree.put('{"If":{"test":');
    tree.expr(node.test);
    tree.put(',"cons":');
    tree.stmt(node.consequent);
    tree.optional(',"alt":', node.alternate, 'stmt');
    tree.putEnd(node, '}}');
  },
  SwitchStatement: (tree, node) => {
    tree.put('{"Switch":{"discriminant":');
    tree.expr(node.discriminant);
    tree.list(',"cases":', node.cases, 'switchCase');
    tree.putEnd(node, '}}');
  },
  TryStatement: (tree, node) => {
    tree.put('{"Try":{"block":');
    tree.block(node.block);
    tree.optional(',"handler":', node.handler, 'handler');
    tree.optional(',"finalizer":', node.finalizer, 'block');
    tree.putEnd(node, '}}');
  },
  WhileStatement: ofBody('{"While":{"test":', 'test'),
  DoWhileStatement: ofBody('{"DoWhile":{"test":', 'test'),
  ForStatement: (tree, node) => {
    tree.put('{"For":{"body":');
    tree.stmt(node.body);
    tree.optional(',"init":', node.init, 'forInit');
    tree.optional(',"test":', node.test, 'expr');
    tree.optional(',"update":', node.update, 'expr');
    tree.putEnd(node, '}}');
  },
  ForInStatement: (tree, node) => tree.within('{"ForIn":', 'forParts', node),
  ForOfStatement: (tree, node) => tree.within('{"ForOf":', 'forParts', node),
};

const functionDeclaration = (tree, node) => {
  tree.put('{"Fn":{"ident":');
  tree.declaredName(node);
  tree.putFlag(',"declare":', node.declare);
  tree.put(',"function":');
  tree.function(node);
  tree.put('}}');
};

const DECLARATIONS = {
  VariableDeclaration: (tree, node) => (node.kind === 'using' ? tree.within('{"Using":', 'usingDecl', node) : tree.within('{"Var":', 'varDecl', node)),
  FunctionDeclaration: functionDeclaration,
  TSDeclareFunction: functionDeclaration,
  ClassDeclaration: (tree, node) => {
    tree.put('{"Class":{"ident":');
    tree.declaredName(node);
    tree.putFlag(',"declare":', node.declare);
    tree.put(',"class":');
    tree.class(node);
    tree.put('}}');
  },
  TSInterfaceDeclaration: (tree, node) => tree.within('{"TsInterface":', 'interface', node),
  TSTypeAliasDeclaration: (tree, node) => {
    tree.put('{"TsTypeAlias":{"id":');
    tree.ident(node.id);
    tree.putFlag(',"declare":', node.declare);
    tree.optional(',"type_params":', node.typeParameters, 'typeParams');
    tree.put(',"type_ann":');
    tree.type(node.typeAnnotation);
    tree.putEnd(node, '}}');
  },
  TSEnumDeclaration: (tree, node) => {
    tree.put('{"TsEnum":{"id":');
    tree.ident(node.id);
    tree.putFlag(',"declare":', node.declare);
    tree.putFlag(',"is_const":', node.const);
    tree.list(',"members":', node.members, 'enumMember');
    tree.putEnd(node, '}}');
  },
  TSModuleDeclaration: (tree, node) => tree.within('{"TsModule":', 'namespace', node),
};

const statements = {
  directive(node) {
    this.put('{"Expr":{"expr":{"Lit":{"Str":');
    this.directiveString(node.value);
    this.put('}}');
    this.putEnd(node, '}}');
  },

  expressionStatement(node) {
    this.parentheses(node);
  },

  // The statements of a body, its directives first.
  body(begin, node) {
    this.lists(begin, node.directives, 'directive', node.body, 'stmt');
  },

  block(node) {
    if (node.body.length > 0 || (node.directives && node.directives.length > 0)) {
      this.put('{');
      this.body('"stmts":', node);
      this.putEnd(node, '}');
    } else this.put(`{${(this.empty(',"stmts":') + this.at(node)).slice(1)}}`);
  },

  stmt(node) {
    const made = STATEMENTS[node.type];
    if (made !== undefined) made(this, node);
    else {
      this.put('{"Decl":');
      if (!this.decl(node)) this.refuse(node, 'a statement');
      this.put('}');
    }
  },

  switchCase(node) {
    const place = this.at(node);
    this.put('{"cons":');
    this.listed(node.consequent, 'stmt');
    this.optional(',"test":', node.test, 'expr');
    this.put(place);
    this.put('}');
  },

  handler(node) {
    this.put('{"body":');
    this.block(node.body);
    this.optional(',"param":', node.param, 'pat');
    this.putEnd(node, '}');
  },

  // (without one it may only be the default of a module)
  declaredName(node) {
    return node.id ? this.ident(node.id) : this.refuse(node, 'printed here without a name');
  },

  // (`using` has no place in the head of a `for` without `of`)
  forInit(node) {
    return node.type === 'VariableDeclaration' ? this.within('{"VarDecl":', 'varDecl', node) : this.within('{"Expr":', 'expr', node);
  },

  forParts(node) {
    this.put('{"left":');
    this.forHead(node.left);
    this.put(',"right":');
    this.expr(node.right);
    this.put(',"body":');
    this.stmt(node.body);
    if (node.type === 'ForOfStatement') this.putFlag(',"is_await":', node.await);
    this.putEnd(node, '}');
  },

  forHead(node) {
    if (node.type !== 'VariableDeclaration') return this.within('{"Pat":', 'pat', node);
    return node.kind === 'using' ? this.within('{"UsingDecl":', 'usingDecl', node) : this.within('{"VarDecl":', 'varDecl', node);
  },

  declarator(node) {
    this.put('{"name":');
    this.pat(node.id);
    this.optional(',"init":', node.init, 'initializer');
    this.putFlag(',"definite":', node.definite);
    this.putEnd(node, '}');
  },

  initializer(node) {
    this.expr(node);
  },

  varDecl(node) {
    const kind = KINDS[node.kind] || this.refuse(node, `printed here: \`${node.kind}\` has no place`);
    this.put('{"kind":"');
    this.put(kind);
    this.put('"');
    this.putFlag(',"declare":', node.declare);
    this.put(',"decls":');
    this.listed(node.declarations, 'declarator');
    this.putEnd(node, '}');
  },

  usingDecl(node) {
    this.without(node, 'declare');
    this.put('{"decls":');
    this.listed(node.declarations, 'declarator');
    this.put(`${this.no(',"is_await":')}${this.at(node)}}`);
  },

  // Whether a node is a declaration, which is written then.
  decl(node) {
    const made = DECLARATIONS[node.type];
    if (made !== undefined) made(this, node);
    return made !== undefined;
  },
};

module.exports = statements;
