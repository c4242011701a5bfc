'use strict';
// Items of modules, and programs.
const { quoted } = require('./json_text.js');

const PHASES = { source: 'Source', defer: 'Defer', null: 'Evaluation', undefined: 'Evaluation' };
// whether imports and exports are of types
const OF_TYPES = { type: true, value: false, null: false, undefined: false };

// A function or a class with a name or without.
const byDefault = (name, part) => (tree, node) => {
  tree.without(node, 'declare');
  tree.put(`{"${name}":{"${part}":`);
  tree[part](node);
  tree.optional(',"ident":', node.id, 'ident');
  tree.put('}}');
};

const DEFAULTS = {
  FunctionDeclaration: byDefault('Fn', 'function'),
  TSDeclareFunction: byDefault('Fn', 'function'),
  ClassDeclaration: byDefault('Class', 'class'),
  TSInterfaceDeclaration: (tree, node) => tree.within('{"TsInterfaceDecl":', 'interface', node),
};

const ITEMS = {
  ImportDeclaration: (tree, node) => tree.within('{"Import":', 'importDecl', node),
  ExportNamedDeclaration: (tree, node) => (node.declaration ? tree.within('{"ExportDecl":', 'exportDecl', node) : tree.within('{"ExportNamed":', 'exportNamed', node)),
  ExportAllDeclaration: (tree, node) => {
    tree.put('{"ExportAll":{"src":');
    tree.string(node.source);
    tree.put(tree.ofTypes(',"type_only":', node, node.exportKind));
    tree.attributes(node);
    tree.putEnd(node, '}}');
  },
  ExportDefaultDeclaration: (tree, node) => {
    const { declaration } = node, made = DEFAULTS[declaration.type];
    tree.put(made ? '{"ExportDefaultDecl":{"decl":' : '{"ExportDefaultExpr":{"expr":');
    if (made) made(tree, declaration);
    else tree.expr(declaration);
    tree.putEnd(node, '}}');
  },
  TSImportEqualsDeclaration: (tree, node) => {
    tree.put('{"TsImportEquals":{"id":');
    tree.ident(node.id);
    tree.put(`${tree.flag(',"is_export":', node.isExport)}${tree.ofTypes(',"is_type_only":', node, node.importKind)},"module_ref":`);
    tree.moduleRef(node.moduleReference);
    tree.putEnd(node, '}}');
  },
  TSExportAssignment: (tree, node) => tree.within('{"TsExportAssignment":', 'parentheses', node),
  TSNamespaceExportDeclaration: (tree, node) => {
    tree.put('{"TsNamespaceExport":{"id":');
    tree.ident(node.id);
    tree.putEnd(node, '}}');
  },
};

const modules = {
  moduleItem(node) {
    const made = ITEMS[node.type];
    this.put(made ? '{"ModuleDecl":' : '{"Stmt":');
    if (made) made(this, node);
    else this.stmt(node);
    this.put('}');
  },

  moduleDirective(node) {
    this.within('{"Stmt":', 'directive', node);
  },

  moduleBody(begin, node) {
    this.lists(begin, node.directives, 'moduleDirective', node.body, 'moduleItem');
  },

  exportName(node) {
    return node.type === 'StringLiteral' ? this.within('{"Str":', 'string', node) : this.within('{"Ident":', 'ident', node);
  },

  // Whether both names of a specifier are one name in the text.
  areOne(name, local) {
    return name.start === local.start;
  },

  // A second name, where it isn't the first.
  otherName(begin, name, local) {
    this.optional(begin, this.areOne(name, local) ? null : name, 'exportName');
  },

  importDecl(node) {
    const phase = PHASES[node.phase] || this.refuse(node, `printed in the phase \`${node.phase}\``);
    this.put('{"src":');
    this.string(node.source);
    this.list(',"specifiers":', node.specifiers, 'importSpecifier');
    this.put(`,"phase":"${phase}"${this.ofTypes(',"type_only":', node, node.importKind)}`);
    this.attributes(node);
    this.putEnd(node, '}');
  },

  importSpecifier(node) {
    const name = { ImportDefaultSpecifier: 'Default', ImportNamespaceSpecifier: 'Namespace' }[node.type] || 'Named';
    this.put(`{"${name}":{"local":`);
    this.ident(node.local);
    if (name === 'Named') {
      this.otherName(',"imported":', node.imported, node.local);
      this.put(this.ofTypes(',"is_type_only":', node, node.importKind));
    }
    this.putEnd(node, '}}');
  },

  exportSpecifier(node) {
    if (node.type === 'ExportNamespaceSpecifier') {
      this.put('{"Namespace":{"name":');
      this.exportName(node.exported);
    } else if (node.type === 'ExportDefaultSpecifier') {
      this.put('{"Default":{"exported":');
      this.ident(node.exported);
    } else {
      this.put('{"Named":{"orig":');
      this.exportName(node.local);
      this.otherName(',"exported":', node.exported, node.local);
      this.put(this.ofTypes(',"is_type_only":', node, node.exportKind));
    }
    this.putEnd(node, '}}');
  },

  ofTypes(begin, node, kind) {
    return OF_TYPES[kind] === undefined ? this.refuse(node, `printed: \`${kind}\` has no place in the tree`) : this.flag(begin, OF_TYPES[kind]);
  },

  exportDecl(node) {
    this.without(node, 'specifiers', 'source', 'attributes', 'assertions');
    this.put('{"decl":');
    if (!this.decl(node.declaration)) this.refuse(node.declaration, 'a declaration');
    this.putEnd(node, '}');
  },

  exportNamed(node) {
    this.put('{"specifiers":');
    this.listed(node.specifiers || [], 'exportSpecifier');
    this.optional(',"src":', node.source, 'string');
    this.put(this.ofTypes(',"type_only":', node, node.exportKind));
    this.attributes(node);
    this.putEnd(node, '}');
  },

  // `{ type: 'json' }` of an import or export, as an object.
  attributes(node) {
    const found = [node.attributes, node.assertions].find((each) => each && each.length);
    if (!found) return this.put(this.none(',"with":'));
    if (found === node.attributes) this.without(node, 'assertions');
    else this.asserts = true;
    const first = found[0].start, last = found[found.length - 1].end;
    this.put(',"with":{"props":');
    this.listed(found, 'attribute');
    return this.put(`${this.placed(this.between(this.before('{', first), this.behind('}', last)))}}`);
  },

  attribute({ key, value }) {
    this.put('{"Prop":{"KeyValue":{"key":');
    this.propName(key, false);
    this.put(',"value":');
    this.expr(value);
    this.put('}}}');
  },

  moduleRef(node) {
    if (node.type !== 'TSExternalModuleReference') return this.within('{"TsEntityName":', 'entity', node);
    this.put('{"TsExternalModuleRef":{"expr":');
    this.string(node.expression);
    return this.putEnd(node, '}}');
  },

  namespace(node) {
    this.put('{"id":');
    this.exportName(node.id);
    this.put(`${this.flag(',"declare":', node.declare)}${this.flag(',"global":', node.global)}`);
    this.optional(',"body":', node.body, 'namespaceBody');
    this.putEnd(node, '}');
  },

  namespaceBody(node) {
    if (node.type === 'TSModuleDeclaration') return this.within('{"TsNamespaceDecl":', 'innerNamespace', node);
    this.put('{"TsModuleBlock":{');
    return this.bodyEnd('"body":', 'moduleBody', node, this.at(node));
  },

  innerNamespace(node) {
    this.without(node, 'declare', 'global');
    this.put('{"id":');
    this.ident(node.id);
    this.put(`${this.no(',"declare":')},"body":`);
    this.namespaceBody(node.body);
    this.putEnd(node, '}');
  },

  // The end of an object with a body that may be empty, and other members.
  bodyEnd(begin, method, node, others) {
    const isEmpty = node.body.length === 0 && (!node.directives || node.directives.length === 0);
    if (isEmpty) return this.put(`${(this.empty(`,${begin}`) + others).slice(1)}}}`);
    this[method](begin, node);
    return this.put(`${others}}}`);
  },

  // Where a program stands: from its first token to its last, as swc's parser has it.
  programSpan(program) {
    const parts = [program.interpreter, ...(program.directives || []), ...program.body].filter((part) => part);
    const first = parts[0] || program, last = parts[parts.length - 1] || program;
    return this.between(first.start, last.end);
  },

  program({ program }) {
    const isModule = program.sourceType === 'module' || program.body.some((node) => node.type in ITEMS);
    const shebang = program.interpreter ? `,"shebang":${quoted(program.interpreter.value)}` : this.none(',"shebang":');
    this.put(isModule ? '{"Module":{' : '{"Script":{');
    this.bodyEnd('"body":', isModule ? 'moduleBody' : 'body', program, shebang + this.placed(this.programSpan(program)));
  },
};

module.exports = modules;
