'use strict';
// Whether two ASTs of Babel's parser are one program, but for places, comments, spellings of literals, and parentheses and braces that change
// nothing.
const { decoded } = require('ecmaprint/lib/tree_of/spellings.js');

const SKIPPED = new Set([
  'start', 'end', 'loc', 'range', 'extra', 'leadingComments', 'trailingComments', 'innerComments', 'comments', 'errors', 'tokens', 'raw', 'parent',
  'sourceType', 'directive',
]);

const isNone = (value) => value === undefined || value === null || value === false || (Array.isArray(value) && value.length === 0);

// A node without the parentheses round it.
function bare(node) {
  let inner = node;
  for (;;) {
    if (inner && inner.type === 'ParenthesizedExpression') inner = inner.expression;
    else if (inner && inner.type === 'TSParenthesizedType') inner = inner.typeAnnotation;
    else return inner;
  }
}

const HAS_BODY = /^(?:If|For|While|With|Labeled|DoWhile)/;
const BODIES = new Set(['consequent', 'alternate', 'body']);

// What counts of a list's items.
const itemsOf = (list, { minify }) => (minify ? list.filter((each) => !each || each.type !== 'EmptyStatement') : list);

// The one statement in a block that is the body of another.
function lone(node, name, options) {
  if (!node || node.type !== 'BlockStatement' || !BODIES.has(name) || !isNone(node.directives)) return node;
  const [first, ...others] = itemsOf(node.body, options);
  return first && others.length === 0 && /^(?:If|For|While|With|Labeled|Expression)/.test(first.type) ? first : node;
}

// A directive's text without its escapes, which count in that of strict mode alone.
const meantBy = (text) => (decoded(`"${text}"`) === 'use strict' ? text : decoded(`"${text}"`));

function ofTemplate(one, other, { minify }) {
  const raw = ({ value }) => value.raw.replace(/\r\n?/g, '\n');
  const isSame = one.value.cooked === other.value.cooked && (minify || raw(one) === raw(other));
  return isSame ? null : `TemplateElement.value: ${JSON.stringify(one.value)} / ${JSON.stringify(other.value)}`;
}

function ofLists(one, other, options, at, owner) {
  const [ours, others] = [itemsOf(one, options), itemsOf(other, options)];
  for (let index = 0; index < Math.min(ours.length, others.length); index++) {
    const found = difference(ours[index], others[index], options, at, owner);
    if (found !== null) return found;
  }
  return ours.length === others.length ? null : `${at}: ${ours.length} items / ${others.length}`;
}

function ofNodes(one, other, options, at) {
  if (one.type !== other.type) return `${at}: ${one.type} / ${other.type}`;
  if (one.type === 'TemplateElement') return ofTemplate(one, other, options);
  for (const name of new Set([...Object.keys(one), ...Object.keys(other)])) {
    if (SKIPPED.has(name) || name[0] === '_' || (isNone(one[name]) && isNone(other[name])) || (one.type === 'ObjectProperty' && name === 'shorthand')) continue;
    if (one.type === 'DirectiveLiteral' && name === 'value' && options.minify && meantBy(one.value) === meantBy(other.value)) continue;
    const found = difference(one[name], other[name], options, `${one.type || ''}.${name}`, one.type);
    if (found !== null) return found;
  }
  return null;
}

// The first difference of two values, in words; nothing where they are the same. With `minify` empty statements don't count, nor do quotes and
// escapes of directives. `owner` is the type of the node that they are of.
function difference(given, other, options = {}, at = '', owner = '') {
  let [one, two] = [bare(given), bare(other)];
  if (one === two || Object.is(one, two) || (isNone(one) && isNone(two))) return null;
  if (one === null || two === null || typeof one !== 'object' || typeof two !== 'object') return `${at}: ${String(JSON.stringify(one)).slice(0, 80)} / ${String(JSON.stringify(two)).slice(0, 80)}`;
  if (Array.isArray(one) !== Array.isArray(two)) return `${at}: a list or none`;
  if (Array.isArray(one)) return ofLists(one, two, options, at, owner);
  if (one instanceof RegExp && two instanceof RegExp) return String(one) === String(two) ? null : `${at}: ${one} / ${two}`;
  if (HAS_BODY.test(owner)) {
    const name = at.split('.').pop();
    [one, two] = [lone(one, name, options), lone(two, name, options)];
  }
  return ofNodes(one, two, options, at);
}

module.exports = { difference };
