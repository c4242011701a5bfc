'use strict';
// The flat form of a tree: a list of nodes, in which a link is the number of an earlier node. Which members of a node are links, links.json
// says: `arg: ExprBox<N>` is one to an `Expr`.
const TYPES = require('./links.json');

const converters = new Map();
const isNone = (value) => value === null || value === undefined; // (undefined is left out, in a short form)

// What makes the flat form of a value of a type, with the list that its nodes go to; nothing for a type without links.
function converter(type) {
  if (!converters.has(type)) converters.set(type, made(type));
  return converters.get(type);
}

function made(type) {
  const [, name, of] = /^(\w+)<(.*)>$/.exec(type) || [];
  if (name === undefined) return null;
  if (name === 'Option' || name === 'Box') return converter(of); // (`null` is itself)
  if (name === 'Vec') return list(converter(of));
  if (name.endsWith('Box')) return link(name.slice(0, -'Box'.length));
  return TYPES[name] ? parts(TYPES[name]) : null;
}

const list = (inner) => (values, nodes) => (isNone(values) || inner === null ? values : values.map((each) => inner(each, nodes)));

// The number of a node that a link leads to. What it links to itself gets its numbers first. (Types are recursive, so that converters of
// parts are looked up where they are first called)
function link(sort) {
  let inner;
  return (value, nodes) => {
    if (isNone(value)) return value;
    if (inner === undefined) inner = converter(`${sort}<N>`);
    return nodes.push({ [sort]: inner === null ? value : inner(value, nodes) }) - 1;
  };
}

// A struct's members, or an enum's one variant; the name of a variant that holds nothing stays.
function parts(types) {
  const inner = {};
  return (value, nodes) => {
    if (isNone(value) || typeof value === 'string') return value;
    const flat = {};
    for (const name in value) {
      if (inner[name] === undefined) inner[name] = types[name] ? converter(types[name]) : null;
      flat[name] = inner[name] === null ? value[name] : inner[name](value[name], nodes);
    }
    return flat;
  };
}

// The flat form of a program's tree.
function flat(program) {
  const nodes = [], last = { Program: converter('Program<N>')(program, nodes) };
  nodes.push(last);
  return { nodes };
}

module.exports = { flat };
