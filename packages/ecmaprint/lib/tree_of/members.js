'use strict';
// Which members each type of node has that the builder reads, in the order of the text. A node with another member isn't printed: what it
// says would be lost. The types are Babel's; estree.js makes them of ESTree's.
//
//   body:BlockStatement   a node, of these types where they are named (`A|B`)
//   init?                 a node, or none
//   params*               nodes
//   elements*?            nodes, or holes
//   directives*~          nodes; the list may be missing
//   name=string           a value of this type; with `?` it may be missing, as each boolean may

const FUNCTION = 'async=boolean generator=boolean typeParameters?:TSTypeParameterDeclaration|TypeParameterDeclaration params* returnType?';
const METHOD = `${FUNCTION} kind=string static=boolean computed=boolean decorators*~:Decorator key body:BlockStatement`;
const MARKS = 'accessibility=string? abstract=boolean override=boolean optional=boolean';
const FIELD = 'decorators*~:Decorator static=boolean key typeAnnotation? value? accessibility=string?';
const CLASS = 'decorators*~:Decorator abstract=boolean typeParameters?:TSTypeParameterDeclaration|TypeParameterDeclaration superClass? superTypeParameters?:TSTypeParameterInstantiation implements*~:TSExpressionWithTypeArguments body:ClassBody';
const TYPE_ARGUMENTS = 'typeParameters?:TSTypeParameterInstantiation';
const SIGNATURE = 'typeParameters?:TSTypeParameterDeclaration parameters* typeAnnotation?:TSTypeAnnotation';
const ATTRIBUTES = 'attributes*~:ImportAttribute assertions*~:ImportAttribute';

const MEMBERS = {
  // programs
  File: 'program:Program',
  Program: 'sourceType=string? interpreter?:InterpreterDirective directives*~:Directive body*',
  InterpreterDirective: 'value=string',
  Directive: 'value:DirectiveLiteral',
  DirectiveLiteral: 'value=string',

  // names and literals
  Identifier: 'name=string optional=boolean typeAnnotation? decorators*~:Decorator',
  PrivateName: 'id:Identifier',
  StringLiteral: 'value=string',
  NumericLiteral: 'value=number|null',
  BigIntLiteral: 'value=string',
  BooleanLiteral: 'value=boolean!',
  NullLiteral: '',
  RegExpLiteral: 'pattern=string flags=string',
  TemplateElement: 'value=any tail=boolean',
  TemplateLiteral: 'quasis*:TemplateElement expressions*',

  // expressions
  ThisExpression: '',
  Super: '',
  Import: '',
  ArrayExpression: 'elements*?',
  ObjectExpression: 'properties*',
  SpreadElement: 'argument',
  ObjectProperty: 'decorators*~ computed=boolean shorthand=boolean key value',
  ObjectMethod: `${METHOD} method=boolean`,
  FunctionExpression: `${FUNCTION} id?:Identifier body:BlockStatement`,
  ArrowFunctionExpression: `${FUNCTION} id? expression=boolean body`,
  ClassExpression: `${CLASS} id?:Identifier`,
  UnaryExpression: 'operator=string prefix=boolean argument',
  UpdateExpression: 'operator=string prefix=boolean argument',
  BinaryExpression: 'left operator=string right',
  LogicalExpression: 'left operator=string right',
  AssignmentExpression: 'left operator=string right',
  ConditionalExpression: 'test consequent alternate',
  SequenceExpression: 'expressions*',
  ParenthesizedExpression: 'expression',
  MemberExpression: 'object computed=boolean property',
  OptionalMemberExpression: 'object computed=boolean optional=boolean property',
  CallExpression: `callee ${TYPE_ARGUMENTS} arguments*`,
  OptionalCallExpression: `callee optional=boolean ${TYPE_ARGUMENTS} arguments*`,
  NewExpression: `callee ${TYPE_ARGUMENTS} arguments*`,
  TaggedTemplateExpression: `tag ${TYPE_ARGUMENTS} quasi:TemplateLiteral`,
  YieldExpression: 'delegate=boolean argument?',
  AwaitExpression: 'argument',
  MetaProperty: 'meta:Identifier property:Identifier',

  // patterns
  ArrayPattern: 'elements*? optional=boolean typeAnnotation? decorators*~:Decorator',
  ObjectPattern: 'properties* optional=boolean typeAnnotation? decorators*~:Decorator',
  RestElement: 'argument optional=boolean typeAnnotation? decorators*~:Decorator',
  AssignmentPattern: 'left right optional=boolean typeAnnotation? decorators*~:Decorator',

  // functions and classes
  Decorator: 'expression',
  ClassBody: 'body*',
  ClassMethod: `${METHOD} ${MARKS}`,
  ClassPrivateMethod: `${METHOD} ${MARKS}`,
  TSDeclareMethod: `${FUNCTION} kind=string static=boolean computed=boolean decorators*~:Decorator key ${MARKS}`,
  ClassProperty: `${FIELD} computed=boolean declare=boolean readonly=boolean definite=boolean abstract=boolean override=boolean optional=boolean`,
  ClassPrivateProperty: `${FIELD} readonly=boolean definite=boolean override=boolean optional=boolean`,
  ClassAccessorProperty: `${FIELD} computed=boolean definite=boolean abstract=boolean override=boolean`,
  StaticBlock: 'body*',
  TSParameterProperty: 'decorators*~:Decorator accessibility=string? override=boolean readonly=boolean parameter:Identifier|AssignmentPattern',

  // statements
  BlockStatement: 'directives*~:Directive body*',
  EmptyStatement: '',
  DebuggerStatement: '',
  ExpressionStatement: 'expression directive=string?',
  WithStatement: 'object body',
  ReturnStatement: 'argument?',
  ThrowStatement: 'argument',
  LabeledStatement: 'label:Identifier body',
  BreakStatement: 'label?:Identifier',
  ContinueStatement: 'label?:Identifier',
  IfStatement: 'test consequent alternate?',
  SwitchStatement: 'discriminant cases*:SwitchCase',
  SwitchCase: 'test? consequent*',
  TryStatement: 'block:BlockStatement handler?:CatchClause finalizer?:BlockStatement',
  CatchClause: 'param? body:BlockStatement',
  WhileStatement: 'test body',
  DoWhileStatement: 'body test',
  ForStatement: 'init? test? update? body',
  ForInStatement: 'left right body',
  ForOfStatement: 'await=boolean left right body',

  // declarations
  VariableDeclaration: 'declare=boolean kind=string declarations*:VariableDeclarator',
  VariableDeclarator: 'id definite=boolean init?',
  FunctionDeclaration: `${FUNCTION} declare=boolean id?:Identifier body:BlockStatement`,
  TSDeclareFunction: `${FUNCTION} declare=boolean id?:Identifier`,
  ClassDeclaration: `${CLASS} declare=boolean id?:Identifier`,

  // items of modules
  ImportDeclaration: `importKind=string? phase=string? specifiers*~ source:StringLiteral ${ATTRIBUTES}`,
  ImportSpecifier: 'importKind=string? imported:Identifier|StringLiteral local:Identifier',
  ImportDefaultSpecifier: 'local:Identifier',
  ImportNamespaceSpecifier: 'local:Identifier',
  ImportAttribute: 'key:Identifier|StringLiteral value:StringLiteral',
  ExportNamedDeclaration: `exportKind=string? declaration? specifiers*~ source?:StringLiteral ${ATTRIBUTES}`,
  ExportSpecifier: 'exportKind=string? local:Identifier|StringLiteral exported:Identifier|StringLiteral',
  ExportNamespaceSpecifier: 'exported:Identifier|StringLiteral',
  ExportDefaultSpecifier: 'exported:Identifier',
  ExportAllDeclaration: `exportKind=string? source:StringLiteral ${ATTRIBUTES}`,
  ExportDefaultDeclaration: 'exportKind=string? declaration',

  // JSX
  JSXElement: 'openingElement:JSXOpeningElement children* closingElement?:JSXClosingElement selfClosing=boolean',
  JSXFragment: 'openingFragment:JSXOpeningFragment children* closingFragment:JSXClosingFragment',
  JSXOpeningElement: `name:JSXIdentifier|JSXMemberExpression|JSXNamespacedName ${TYPE_ARGUMENTS} attributes*~:JSXAttribute|JSXSpreadAttribute selfClosing=boolean`,
  JSXClosingElement: 'name:JSXIdentifier|JSXMemberExpression|JSXNamespacedName',
  JSXOpeningFragment: '',
  JSXClosingFragment: '',
  JSXIdentifier: 'name=string',
  JSXMemberExpression: 'object:JSXIdentifier|JSXMemberExpression property:JSXIdentifier',
  JSXNamespacedName: 'namespace:JSXIdentifier name:JSXIdentifier',
  JSXAttribute: 'name:JSXIdentifier|JSXNamespacedName value?',
  JSXSpreadAttribute: 'argument',
  JSXExpressionContainer: 'expression',
  JSXEmptyExpression: '',
  JSXSpreadChild: 'expression',
  JSXText: 'value=string',

  // TypeScript
  TSAsExpression: 'expression typeAnnotation',
  TSSatisfiesExpression: 'expression typeAnnotation',
  TSTypeAssertion: 'typeAnnotation expression',
  TSNonNullExpression: 'expression',
  TSInstantiationExpression: `expression ${TYPE_ARGUMENTS}`,
  TSTypeAnnotation: 'typeAnnotation',
  TSTypeParameterDeclaration: 'params*:TSTypeParameter',
  TSTypeParameterInstantiation: 'params*',
  TypeParameterDeclaration: 'params*:TypeParameter', // Flow's, where they are names alone
  TypeParameter: 'name=string',
  TSTypeParameter: 'const=boolean in=boolean out=boolean name=string constraint? default?',
  TSThisType: '',
  TSFunctionType: SIGNATURE,
  TSConstructorType: `abstract=boolean ${SIGNATURE}`,
  TSTypeReference: `typeName:Identifier|TSQualifiedName|ThisExpression ${TYPE_ARGUMENTS}`,
  TSQualifiedName: 'left:Identifier|TSQualifiedName|ThisExpression right:Identifier',
  TSTypeQuery: `exprName:Identifier|TSQualifiedName|ThisExpression|TSImportType ${TYPE_ARGUMENTS}`,
  TSTypeLiteral: 'members*',
  TSArrayType: 'elementType',
  TSTupleType: 'elementTypes*',
  TSNamedTupleMember: 'label:Identifier optional=boolean elementType',
  TSOptionalType: 'typeAnnotation',
  TSRestType: 'typeAnnotation',
  TSParenthesizedType: 'typeAnnotation',
  TSUnionType: 'types*',
  TSIntersectionType: 'types*',
  TSConditionalType: 'checkType extendsType trueType falseType',
  TSInferType: 'typeParameter:TSTypeParameter',
  TSTypeOperator: 'operator=string typeAnnotation',
  TSIndexedAccessType: 'objectType indexType',
  TSMappedType: 'readonly=any typeParameter:TSTypeParameter nameType? optional=any typeAnnotation?',
  TSLiteralType: 'literal',
  TSTypePredicate: 'asserts=boolean parameterName:Identifier|TSThisType typeAnnotation?:TSTypeAnnotation',
  TSImportType: `argument:StringLiteral qualifier?:Identifier|TSQualifiedName ${TYPE_ARGUMENTS}`,
  TSCallSignatureDeclaration: SIGNATURE,
  TSConstructSignatureDeclaration: SIGNATURE,
  TSPropertySignature: 'readonly=boolean computed=boolean key optional=boolean typeAnnotation?:TSTypeAnnotation',
  TSMethodSignature: `kind=string? computed=boolean key optional=boolean ${SIGNATURE}`,
  TSIndexSignature: 'readonly=boolean static=boolean parameters* typeAnnotation?:TSTypeAnnotation',
  TSInterfaceDeclaration: 'declare=boolean id:Identifier typeParameters?:TSTypeParameterDeclaration extends*~:TSExpressionWithTypeArguments body:TSInterfaceBody',
  TSInterfaceBody: 'body*',
  TSExpressionWithTypeArguments: `expression ${TYPE_ARGUMENTS}`,
  TSTypeAliasDeclaration: 'declare=boolean id:Identifier typeParameters?:TSTypeParameterDeclaration typeAnnotation',
  TSEnumDeclaration: 'declare=boolean const=boolean id:Identifier members*:TSEnumMember',
  TSEnumMember: 'id:Identifier|StringLiteral initializer?',
  TSModuleDeclaration: 'declare=boolean global=boolean id:Identifier|StringLiteral body?:TSModuleBlock|TSModuleDeclaration',
  TSModuleBlock: 'directives*~:Directive body*',
  TSImportEqualsDeclaration: 'importKind=string? isExport=boolean id:Identifier moduleReference:Identifier|TSQualifiedName|TSExternalModuleReference',
  TSExternalModuleReference: 'expression:StringLiteral',
  TSExportAssignment: 'expression',
  TSNamespaceExportDeclaration: 'id:Identifier',
};
for (const word of ['Any', 'Unknown', 'Number', 'Object', 'Boolean', 'BigInt', 'String', 'Symbol', 'Void', 'Undefined', 'Null', 'Never', 'Intrinsic']) {
  MEMBERS[`TS${word}Keyword`] = '';
}

// What says nothing of the text: places, and what tools keep for themselves. (Names that begin with `_` are Babel's own)
const SILENT = new Set([
  'type', 'start', 'end', 'loc', 'range', 'extra', 'tokens', 'errors', 'parent', 'trailingComma', 'original', 'scope',
]);

// What Babel's own plugins leave on a node whose type they change in place: it says nothing of the new type.
const LEFT_OVER = {
  FunctionExpression: ['key', 'kind', 'computed', 'static', 'method', 'declare', 'expression'],
  ClassExpression: ['declare'],
  MemberExpression: ['optional'],
  CallExpression: ['optional'],
};

function memberOf(text) {
  const [, name, optional, list, value, types] = /^(\w+?)(\?)?(\*[?~]?)?(?:=([\w|!?]+)|:([\w|]+))?$/.exec(text);
  if (value) {
    const values = value.replace(/[?!]$/, '').split('|');
    return { name, sort: values[0], values, mayMiss: value.endsWith('?') || value === 'boolean' || value === 'any' };
  }
  return { name, sort: 'node', types: types ? types.split('|') : null, mayMiss: !!optional || list === '*~', isList: !!list, hasHoles: list === '*?' };
}

// The members of each type: of values, of nodes, and the names of all that may be there. (check.js keeps shapes of nodes in `shapes`)
const TYPES = new Map(Object.entries(MEMBERS).map(([type, text]) => {
  const members = text === '' ? [] : text.split(' ').map(memberOf);
  const values = members.filter(({ sort }) => sort !== 'node'), held = members.filter(({ sort }) => sort === 'node');
  const names = new Set([...members.map(({ name }) => name), ...SILENT, ...(LEFT_OVER[type] || [])]);
  return [type, { values, held, names, shapes: { known: new Map(), latest: [] }, isCase: type === 'SwitchCase' }];
}));

// Comments that hang on a node; recast has them in one list. (That of a program has all comments, wherever they hang)
const COMMENTS = ['leadingComments', 'innerComments', 'trailingComments', 'comments'];

module.exports = { TYPES, COMMENTS, SILENT };
