'use strict';
// Reads lines of JSON, each some texts of one tree, `{"texts":[{"text":"..","tokens":["n:a",..]},..],"tree":..}`, and answers each
// with who told the tokens of each text, how many texts Babel parsed, how many elements and fragments the tree holds, whether it
// holds types, and a fault or null. With `isRow` a text may be no program; with `typed` in place of `tree` only the texts are compared,
// by the plugin for TypeScript where that holds types. See scripts/dev/read-back and scripts/dev/fuzz.
const { PROPOSALS } = require('../../packages/ecmaprint/lib/tree_of/parser.js');
const { holdsTypes, isReadAs } = require('./typed.js');
let acorn, babel;
try {
  acorn = require('acorn');
  babel = require('@babel/parser');
} catch (error) {
  process.exit(3);
}

// Inside of a class, so that each of `super`, `#a`, `await`, `yield` and `new.target` has a meaning.
const OPEN = 'class A extends B { #a; #\u00e9; #\u{1d4ab}; async *a() {';
const CLOSE = '\n}}';
const PLUGINS = ['jsx', 'decorators', ...PROPOSALS, ['optionalChainingAssign', { version: '2023-07' }], 'sourcePhaseImports', 'deferredImportEvaluation', 'createImportExpressions'];

const ESCAPE = /\\u(?:\{([0-9a-fA-F]+)\}|([0-9a-fA-F]{4}))/g;
const unescaped = (name) => name.replace(ESCAPE, (_, braces, four) => String.fromCodePoint(parseInt(braces || four, 16)));
const NUMBER = (text) => String(Number(text.replace(/_/g, '').replace(/^0(?=[0-7]+$)/, '0o').replace(/^0+(?=[0-9]+(\.|$))/, '')));
const unblanked = (text) => text.replace(/␣/g, ' ');
const VALUES = { x: unblanked, q: unblanked, n: unescaped, w: unescaped, h: unescaped, 0: NUMBER, b: (text) => String(BigInt(text.replace(/_/g, '').slice(0, -1))), s: (text) => (0, eval)('"";' + text) };
const value = (letter, text) => (VALUES[letter] || ((same) => same))(text);

const PUNCTUATORS = '{ } ( ) [ ] . ... ; , < > <= >= == != === !== + - * % ** ++ -- << >> >>> & | ^ ! ~ && || ?? ? : = += -= *= %= **= <<= >>= >>>= &= |= ^= &&= ||= ??= => / /= ?. @'
  .split(' ').sort((one, two) => two.length - one.length);
const PART = '\\\\u\\{[0-9a-fA-F]+\\}|\\\\u[0-9a-fA-F]{4}';
const NAME = `(?:[\\p{ID_Start}$_]|${PART})(?:[\\p{ID_Continue}$\\u200c\\u200d]|${PART})*`;
const SHAPES = {
  n: new RegExp('^' + NAME, 'u'), w: new RegExp('^' + NAME, 'u'), h: new RegExp('^#' + NAME, 'u'),
  0: /^(?:0[xX][0-9a-fA-F_]+|0[bB][01_]+|0[oO][0-7_]+|[0-9][0-9_]*\.?[0-9_]*(?:[eE][+-]?[0-9]+)?|\.[0-9_]+(?:[eE][+-]?[0-9]+)?)/, b: /^0?[0-9xXoObB][0-9a-fA-F_]*n/,
  j: new RegExp(`^${NAME}(?:-|${NAME}|[\\p{ID_Continue}])*`, 'u'), q: /^(?:"[^"]*"|'[^']*')/, '>': /^>/, '{': /^[{<]/,
  s: /^(?:"(?:[^"\\]|\\[^])*"|'(?:[^'\\]|\\[^])*')/, r: /^\/(?:[^/\\[]|\\.|\[(?:[^\]\\]|\\.)*\])+\/[a-z]*/,
};

// Whether these texts are the tokens that are wanted.
function are(found, wanted) {
  return found !== null && found.length === wanted.length && wanted.every((token, at) => value(token[0], token.slice(2)) === value(token[0], found[at]));
}

function tokensByAcorn(text) {
  const src = '(' + text;
  try {
    return [...acorn.tokenizer(src, { ecmaVersion: 'latest' })].slice(1).map((token) => src.slice(token.start, token.end));
  } catch (error) {
    return null;
  }
}

// What may stand before a text and after it. A hashbang is one at the very beginning alone, and much of TypeScript stands in no function.
function frames(text, isTyped, isFile) {
  if (text.startsWith('#!')) return [['', '']];
  if (isFile) return [['', ''], [OPEN, CLOSE]];
  return isTyped ? [[OPEN, CLOSE], ['', '']] : [[OPEN, CLOSE]];
}

// What reads a text: of a whole file also what reads TypeScript, without JSX too, with decorators before parameters and before `export`,
// and files of declarations alone.
function plugins(isTyped, isFile) {
  const others = PLUGINS.slice(1), old = PLUGINS.map((name) => (name === 'decorators' ? 'decorators-legacy' : name));
  const typed = [['typescript', ...PLUGINS], ['typescript', ...old], ['typescript', ...others], ['typescript', ...old.slice(1)], [['typescript', { dts: true }], ...others]];
  if (isTyped) return typed;
  return isFile ? [PLUGINS, ...typed] : [PLUGINS];
}

// As a script, or else as a module, which alone has `import.meta`; with what stands before it.
function parsed(text, isTyped, isFile) {
  const allowed = { allowSuperOutsideMethod: true, allowImportExportEverywhere: true, allowReturnOutsideFunction: true, allowUndeclaredExports: true };
  for (const [open, close] of frames(text, isTyped, isFile)) {
    for (const sourceType of ['script', 'module']) {
      for (const some of plugins(isTyped, isFile)) {
        try {
          const file = babel.parse(open + text + close, { sourceType, plugins: some, tokens: true, attachComment: false, ...allowed });
          return { program: file.program, tokens: file.tokens, open, close };
        } catch (error) {
          // (another may have it)
        }
      }
    }
  }
  return null;
}

// With `valued` the parts of templates are told without their text, which the program has as units.
function tokensByBabel(text, file, valued = false) {
  if (file === null) return null;
  const { open, close } = file, src = open + text + close, found = [];
  for (const token of file.tokens) {
    // (comments stand among them)
    if (token.start >= open.length && token.end <= open.length + text.length && typeof token.type !== 'string') {
      const spelled = valued && token.type.label === 'template' ? 'template' : src.slice(token.start, token.end);
      // (some versions have `#` for itself)
      if (found.length && found[found.length - 1] === '#') found.push(found.pop() + spelled);
      else found.push(spelled);
    }
  }
  return found;
}

// The tokens one after the other, each the longest of its kind; null where there is none.
function tokensByKinds(text, wanted) {
  const found = [];
  let rest = text.trimStart();
  for (const token of wanted) {
    const shape = SHAPES[token[0]];
    const match = shape ? shape.exec(rest) : null;
    const spelled = shape ? match && match[0] : PUNCTUATORS.find((mark) => rest.startsWith(mark) && !(mark === '?.' && /^\?\.[0-9]/.test(rest)));
    if (!spelled || ('0b'.includes(token[0]) && /^[\p{ID_Continue}$\\]/u.test(rest.slice(spelled.length)))) return null;
    found.push(spelled);
    rest = rest.slice(spelled.length).trimStart();
  }
  return rest === '' ? found : null;
}

// Whether a node is an empty statement in a list, whose semicolon may be all that ends the statement before it: `{a;;}` is `{a;}` minified.
const isEmpty = (node) => node !== null && node.type === 'EmptyStatement';

// A tree without places, spellings, parentheses, and marks that the parser leaves. A part of a template is its units, unless there is a tag.
function bare(node, tagged = false) {
  if (Array.isArray(node)) return node.filter((held) => !isEmpty(held)).map((held) => bare(held, tagged));
  if (node === null || typeof node !== 'object') return node;
  if (node.type === 'NumericLiteral') return { type: node.type, value: node.value };
  if (node.type === 'TemplateElement' && !tagged) return { type: node.type, value: node.value.cooked };
  const made = {};
  for (const [name, held] of Object.entries(node)) {
    if (!['start', 'end', 'loc', 'extra', 'tokens', 'errors', 'comments', 'range', 'trailingComma'].includes(name)) made[name] = bare(held, (node.type === 'TaggedTemplateExpression' && name === 'quasi') || (tagged && node.type === 'TemplateLiteral' && name === 'quasis'));
  }
  return made;
}

// A name in a tag, as it is spelled: of Babel's tree, and of ours.
function nameOf(node) {
  if (node.type === 'JSXIdentifier') return node.name;
  if (node.type === 'JSXMemberExpression') return nameOf(node.object) + '.' + nameOf(node.property);
  return nameOf(node.namespace) + ':' + nameOf(node.name);
}
function ownName(node) {
  if (node.JSXMemberExpr) return ownName(node.JSXMemberExpr.obj) + '.' + node.JSXMemberExpr.prop.sym;
  if (node.JSXNamespacedName) return node.JSXNamespacedName.ns.sym + ':' + node.JSXNamespacedName.name.sym;
  return node.Ident.sym;
}

// The elements and fragments in Babel's tree, one after the other, each with its parts. Of expressions only those in them stand.
function elements(node, found = []) {
  if (Array.isArray(node)) node.forEach((held) => elements(held, found));
  else if (node !== null && typeof node === 'object') {
    if (/^JSX(Element|Fragment)$/.test(node.type)) found.push(element(node));
    else Object.entries(node).filter(([name]) => !['tokens', 'loc', 'extra', 'errors'].includes(name)).forEach(([, held]) => elements(held, found));
  }
  return found;
}
function element(node) {
  switch (node.type) {
    case 'JSXElement': return { tag: nameOf(node.openingElement.name), isClosed: node.openingElement.selfClosing, attributes: node.openingElement.attributes.map(element), children: node.children.map(element), end: node.closingElement && nameOf(node.closingElement.name) };
    case 'JSXFragment': return { children: node.children.map(element) };
    case 'JSXText': return { text: node.extra.raw };
    case 'JSXExpressionContainer': return { held: elements(node.expression), isEmpty: node.expression.type === 'JSXEmptyExpression' };
    case 'JSXSpreadChild': return { spread: elements(node.expression) };
    case 'JSXSpreadAttribute': return { spread: elements(node.argument) };
    case 'JSXAttribute': return { name: nameOf(node.name), value: node.value && element(node.value) };
    default: return { string: node.extra.raw };
  }
}

// The same of our tree, as it is to be printed.
function ownElements(node, found = []) {
  if (Array.isArray(node)) node.forEach((held) => ownElements(held, found));
  else if (node !== null && typeof node === 'object') {
    if (node.JSXElement || node.JSXFragment) found.push(ownElement(node));
    else Object.values(node).forEach((held) => ownElements(held, found));
  }
  return found;
}
function ownElement(part) {
  const [[kind, node]] = Object.entries(part);
  switch (kind) {
    case 'JSXElement': return { tag: ownName(node.opening.name), isClosed: node.opening.self_closing, attributes: node.opening.attrs.map(ownElement), children: node.children.map(ownElement), end: node.closing && ownName(node.closing.name) };
    case 'JSXFragment': return { children: node.children.map(ownElement) };
    // (by its value, where that may stand between tags)
    case 'JSXText': return { text: /^[^{}<>]+$/.test(node.value) ? node.value : node.raw };
    case 'JSXExprContainer': return { held: ownElements(node.expr), isEmpty: 'JSXEmptyExpr' in node.expr };
    case 'JSXSpreadChild': return { spread: ownElements(node.expr) };
    case 'SpreadElement': return { spread: ownElements(node.expr) };
    case 'JSXAttr': return { name: ownName(node.name), value: node.value && ownElement(node.value) };
    default: {
      // (a string by its raw, or else in quotes that it doesn't hold)
      const quote = node.Str.value.includes('"') ? "'" : '"';
      return { string: node.Str.raw === null ? quote + node.Str.value + quote : node.Str.raw };
    }
  }
}

const isSame = (one, two) => JSON.stringify(bare(one)) === JSON.stringify(bare(two));

// Literals are spelled otherwise without blanks.
const spelled = (token) => (/^(?:\.?[0-9]|["'])|[\n\\]/.test(token) ? 'literal' : token);

// What is left of tokens when all goes that may be there or not.
function core(tokens) {
  return tokens.filter((token, at) => !['(', ')', ';'].includes(token) && !(token === ',' && [']', '}', ')'].includes(tokens[at + 1])));
}

function look({ texts, tree, typed, isRow }) {
  const isTyped = holdsTypes(tree || typed || {});
  const files = texts.map(({ text }) => parsed(text, isTyped, !isRow && !!tree));
  const eyes = [];
  let fault = null;
  texts.forEach(({ text, tokens }, at) => {
    if (tokens === null) return;
    if (are(tokensByAcorn(text), tokens)) eyes.push('acorn');
    else if (are(tokensByBabel(text, files[at]), tokens)) eyes.push('babel');
    else if (files[at] === null && are(tokensByKinds(text, tokens), tokens)) eyes.push('kinds');
    else fault = 'other tokens';
  });
  if (texts.length === 2) {
    if (files[0] !== null && files[1] !== null && !isSame(files[0].program, files[1].program)) fault = fault || 'two programs';
    if (texts[0].tokens === null) {
      const [pretty, minified] = texts.map(({ text }, at) => tokensByBabel(text, files[at], true));
      if (pretty === null || minified === null) fault = fault || (isRow ? null : 'no program');
      else if (core(pretty).map(spelled).join(' ') !== core(minified).map(spelled).join(' ')) fault = fault || 'other tokens';
    }
  }
  if (tree) {
    const wanted = JSON.stringify(ownElements(tree));
    if (files.some((file) => file !== null && JSON.stringify(elements(file.program)) !== wanted)) fault = fault || 'other elements';
    const readings = isTyped && texts[0].tokens === null ? texts.map(({ text }) => isReadAs(text, tree)) : [];
    if (readings.includes(false) || (readings.includes(null) && !isRow)) fault = fault || 'another tree';
  }
  const read = files.filter((file) => file !== null).length;
  return { eyes, parsed: read, alone: texts.length === 2 && read === 1, elements: tree ? ownElements(tree).length : 0, isTyped, fault };
}

const lines = require('fs').readFileSync(0, 'utf8').split('\n').filter((line) => line);
for (const line of lines) process.stdout.write(JSON.stringify(look(JSON.parse(line))) + '\n');
