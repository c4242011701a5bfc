'use strict';
// An AST of ESTree (acorn, espree, meriyah, typescript-estree ..) as one of Babel, of which tree.js makes a tree. Each node that is made says
// in `_from` which one it is made of. What a node has and Babel's type has no place for stays, so that check.js refuses it.
const { isNode } = require('./check.js');
const { COMMENTS, SILENT } = require('./members.js');

const isChained = (node) => node.type === 'MemberExpression' || node.type === 'CallExpression';
const isAround = (node) => node.type === 'TSNonNullExpression' || node.type === 'TSInstantiationExpression';

// A node with the comments of another, whose place it takes.
function withComments(node, other) {
  const made = { ...node };
  for (const name of COMMENTS) if (other[name]) made[name] = [...(node[name] || []), ...other[name]];
  return made;
}

const PLACES = new Set(['type', 'start', 'end', 'loc', 'range', 'parent', 'expression', ...COMMENTS]);

// A method with what its function has; comments round that function stand in the method.
function ofFunction(node, type, more) {
  const { value, ...method } = node, made = { ...method, ...more, type };
  for (const name in value) if (!PLACES.has(name) && !(name === 'id' && value.id === null)) made[name] = value[name];
  const inner = COMMENTS.flatMap((name) => value[name] || []);
  return inner.length === 0 ? made : { ...made, innerComments: [...(node.innerComments || []), ...inner] };
}

function method(node) {
  const isPrivate = node.key.type === 'PrivateName' || node.key.type === 'PrivateIdentifier';
  return ofFunction(node, !node.value.body ? 'TSDeclareMethod' : isPrivate ? 'ClassPrivateMethod' : 'ClassMethod');
}

const LITERALS = { string: 'StringLiteral', number: 'NumericLiteral', boolean: 'BooleanLiteral' };

function literal(node) {
  const { value, raw, regex, bigint, ...others } = node;
  const made = (type, more) => ({ ...others, type, ...more, extra: { raw } });
  if (regex) return made('RegExpLiteral', { pattern: regex.pattern, flags: regex.flags });
  if (typeof bigint === 'string') return made('BigIntLiteral', { value: bigint });
  // (JSON has no infinite numbers: `1e400` has the value null there)
  if (value === null) return raw === undefined || raw === 'null' ? made('NullLiteral') : made('NumericLiteral', { value });
  return made(LITERALS[typeof value] || node.type, { value });
}

// The links of a chain from the first `?.` on are of their own types.
function link(node) {
  if (isAround(node)) {
    const expression = link(node.expression);
    return { ...node, expression, _isLink: expression._isLink };
  }
  if (!isChained(node)) return node;
  const head = node.type === 'MemberExpression' ? 'object' : 'callee', inner = inParentheses(link(node[head]));
  const made = { ...node, [head]: inner, optional: !!node.optional, _from: node };
  return node.optional || inner._isLink ? { ...made, type: `Optional${node.type}`, _isLink: true } : made;
}

// `(a?.b).c` is another chain than `a?.b.c`, and so is `(a?.b)!.c`.
function inParentheses(node) {
  if (!isNode(node)) return node;
  if (node.type === 'ChainExpression') return { type: 'ParenthesizedExpression', expression: node };
  return isAround(node) && !node._isLink ? { ...node, expression: inParentheses(node.expression) } : node;
}

// (outside of a chain node `?.` is a link all the same)
const head = (name) => (node) => ({ ...node, ...(node.optional ? { type: `Optional${node.type}` } : {}), [name]: inParentheses(node[name]) });

// Babel's names of what typescript-estree names otherwise.
function renamed(node) {
  if (node.typeArguments === undefined && node.superTypeArguments === undefined) return node;
  const { typeArguments, superTypeArguments, ...others } = node;
  if (typeArguments && isNode(typeArguments) && typeArguments.type === 'TypeParameterInstantiation') return node; // (Flow's)
  return { ...others, ...(typeArguments ? { typeParameters: typeArguments } : {}), ...(superTypeArguments ? { superTypeParameters: superTypeArguments } : {}) };
}

function ofSignature(node) {
  if (!node.params) return node;
  const { params, returnType, ...others } = node;
  return { ...others, parameters: params, typeAnnotation: returnType };
}

// `namespace a.b {}` has a qualified name there.
function namespaced({ kind, ...node }) {
  const isGlobal = node.global || kind === 'global';
  const nested = ({ left, right }, body) => {
    const inner = { type: 'TSModuleDeclaration', id: right, body };
    return left.type === 'TSQualifiedName' ? nested(left, inner) : { id: left, body: inner };
  };
  return { ...node, global: isGlobal, ...(node.id.type === 'TSQualifiedName' ? nested(node.id, node.body) : {}) };
}

function mapped(node) {
  if (node.typeParameter || !node.key) return node;
  const { key, constraint, ...others } = node;
  return { ...others, typeParameter: { type: 'TSTypeParameter', name: key.name, constraint } };
}

const heritage = (node) => ({ ...node, type: 'TSExpressionWithTypeArguments' });
const abstract = (type) => (node) => ({ ...node, type, abstract: true });

const TYPES = {
  Literal: literal,
  JSXText: ({ raw, ...node }) => (raw === undefined ? node : { ...node, extra: { raw } }),
  Property: (node) => (node.method || node.kind === 'get' || node.kind === 'set'
    ? ofFunction(node, 'ObjectMethod', { kind: node.method ? 'method' : node.kind, shorthand: undefined })
    : { ...node, type: 'ObjectProperty', kind: undefined, method: undefined }),
  MethodDefinition: method,
  PropertyDefinition: (node) => ({ ...node, type: node.key.type === 'PrivateIdentifier' ? 'ClassPrivateProperty' : 'ClassProperty' }),
  AccessorProperty: (node) => ({ ...node, type: 'ClassAccessorProperty' }),
  PrivateIdentifier: ({ name, ...node }) => ({ ...node, type: 'PrivateName', id: { type: 'Identifier', name } }),
  ChainExpression: (node) => withComments({ ...link(node.expression), _from: node }, node),
  MemberExpression: head('object'),
  CallExpression: head('callee'),
  TaggedTemplateExpression: head('tag'),
  ImportExpression: ({ source, options, attributes, ...node }) => ({
    ...node, type: 'CallExpression', callee: { type: 'Import' }, arguments: [source, options || attributes].filter((each) => each),
  }),
  ExportAllDeclaration: ({ exported, ...node }) => (exported
    ? { ...node, type: 'ExportNamedDeclaration', declaration: null, specifiers: [{ type: 'ExportNamespaceSpecifier', exported }] }
    : node),
  // `export import a = b`
  ExportNamedDeclaration: (node) => (node.declaration && node.declaration.type === 'TSImportEqualsDeclaration'
    ? withComments({ ...node.declaration, isExport: true }, node)
    : node),
  TSAbstractMethodDefinition: (node) => ({ ...method(node), type: 'TSDeclareMethod', abstract: true }),
  TSAbstractPropertyDefinition: abstract('ClassProperty'),
  TSAbstractAccessorProperty: abstract('ClassAccessorProperty'),
  TSFunctionType: ofSignature,
  TSConstructorType: ofSignature,
  TSCallSignatureDeclaration: ofSignature,
  TSConstructSignatureDeclaration: ofSignature,
  TSMethodSignature: ofSignature,
  TSInterfaceHeritage: heritage,
  TSClassImplements: heritage,
  TSTypeParameter: (node) => (isNode(node.name) ? { ...node, name: node.name.name } : node),
  TSTemplateLiteralType: ({ types, quasis, ...node }) => ({ ...node, type: 'TSLiteralType', literal: { type: 'TemplateLiteral', expressions: types, quasis } }),
  TSImportType: (node) => (node.argument && node.argument.type === 'TSLiteralType' ? { ...node, argument: node.argument.literal } : node),
  TSMappedType: mapped,
  TSEnumDeclaration: ({ body, ...node }) => (body ? { ...node, members: body.members } : node),
  TSModuleDeclaration: namespaced,
};

// Members that hold no nodes of the program.
const SHALLOW = new Set([...SILENT, ...COMMENTS, 'regex']);

// The same AST with Babel's types. With `marks` parentheses that Babel's parser only marked are nodes.
function babelOf(value, options = {}) {
  if (Array.isArray(value)) return value.map((each) => babelOf(each, options));
  if (!isNode(value)) return value;
  const named = TYPES[value.type] ? TYPES[value.type](value) : value, made = renamed(named), parts = {};
  for (const name in made) {
    const part = made[name];
    parts[name] = part !== null && typeof part === 'object' && !SHALLOW.has(name) && name[0] !== '_' ? babelOf(part, options) : part;
  }
  if (parts._from === undefined) parts._from = value._from || value;
  const isMarked = options.marks && !!(value.extra && value.extra.parenthesized) && value.type !== 'ParenthesizedExpression';
  return isMarked ? { type: 'ParenthesizedExpression', expression: parts, _from: value } : parts;
}

const OF_ESTREE = new Set(['Literal', 'Property', 'MethodDefinition', 'PropertyDefinition', 'AccessorProperty', 'PrivateIdentifier', 'ChainExpression', 'ImportExpression']);

// Whether an AST is ESTree's: a program of Babel's has a list of directives, and other nodes tell by the types in them.
function isEstree(top) {
  if (top.type === 'Program') return !Array.isArray(top.directives);
  const waiting = [top], seen = new Set(waiting);
  while (waiting.length > 0) {
    const node = waiting.pop();
    if (OF_ESTREE.has(node.type)) return true;
    for (const name in node) {
      if (SHALLOW.has(name) || name[0] === '_') continue;
      for (const each of Array.isArray(node[name]) ? node[name] : [node[name]]) {
        if (isNode(each) && !seen.has(each)) {
          seen.add(each);
          waiting.push(each);
        }
      }
    }
  }
  return false;
}

module.exports = { babelOf, isEstree };
