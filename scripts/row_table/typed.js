'use strict';
// Trees that hold TypeScript, and whether a text is read as one of them.
const { treeOf } = require('../../packages/ecmaprint/lib/tree_of/tree.js');

const TYPES = ['type_ann', 'type_args', 'type_params', 'return_type', 'super_type_params', 'accessibility'];
const FLAGS = ['declare', 'type_only', 'is_type_only', 'definite', 'is_abstract', 'is_optional', 'is_override', 'readonly'];

// Whether something of TypeScript stands in a tree: its types and declarations, what it adds to others, or a function without a body.
function holdsTypes(node) {
  if (Array.isArray(node)) return node.some(holdsTypes);
  if (node === null || typeof node !== 'object') return false;
  if (TYPES.some((name) => node[name]) || FLAGS.some((name) => node[name] === true) || (node.optional === true && !('base' in node))) return true;
  if (('params' in node && node.body === null) || (node.implements || []).length > 0 || node.this_param) return true;
  return Object.entries(node).some(([name, held]) => name.startsWith('Ts') || holdsTypes(held));
}

const isSpan = (node) => Object.keys(node).join() === 'lo,hi';
const cooked = (raw) => (0, eval)('`' + raw + '`');

// An empty statement in a list, whose semicolon may be all that ends the statement before it: `{a;;}` is `{a;}` minified.
const isEmpty = (node) => node !== null && ('Empty' in node || ('Stmt' in node && 'Empty' in node.Stmt));

// A tree without places and spellings, with the empty arguments of `new`, which may be left out, and without joints of one type.
function bare(node) {
  if (Array.isArray(node)) return node.filter((held) => !isEmpty(held)).map(bare);
  if (node === null || typeof node !== 'object') return node;
  if (isSpan(node)) return true;
  if (node.JSXText) return { JSXText: /[{}<>]/.test(node.JSXText.value) ? node.JSXText.raw : node.JSXText.value };
  const joined = node.TsUnionOrIntersectionType && Object.values(node.TsUnionOrIntersectionType)[0].types;
  if (joined && joined.length === 1) return bare(joined[0]);
  const names = Object.keys(node).filter((name) => name !== 'span').sort();
  if (names.join() === 'raw') return cooked(node.raw);
  const made = {};
  for (const name of names) if (name !== 'raw') made[name] = name === 'args' && node.args === null ? [] : bare(node[name]);
  return made;
}

// The items of a program, as text: of a script too, whose statements stand in no items.
const item = (node) => (node.ModuleDecl || node.Stmt ? node : { Stmt: node });
const items = (tree) => JSON.stringify(Object.values(tree).map(({ body }) => bare(body.map(item))));

// What may read a text: TypeScript with JSX, or else without, and files of declarations alone.
const READERS = [{ jsx: true }, { jsx: false }, { jsx: false, declarations: true }];

// Whether a text is the source of a tree. Nothing where it is no source.
function isReadAs(text, tree) {
  const wanted = items(tree);
  let answer = null;
  for (const reader of READERS) {
    try {
      if (items(treeOf(text, { typescript: true, declarations: false, nowhere: true, ...reader }).tree) === wanted) return true;
      answer = false;
    } catch (error) {
      // (another may read it)
    }
  }
  return answer;
}

module.exports = { holdsTypes, isReadAs };
