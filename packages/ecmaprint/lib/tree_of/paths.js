'use strict';
// The way to a node of an AST: names of members and numbers in lists. An AST may nest deeper than a function may call itself.
const { SILENT } = require('./members.js');

const isPart = (name) => !SILENT.has(name) && name[0] !== '_';

// The parts of a node or a list that may hold nodes, each with its name.
function partsOf(value) {
  const names = Array.isArray(value) ? value.keys() : Object.keys(value).filter(isPart);
  return [...names].map((name) => [name, value[name]]).filter(([, part]) => part !== null && typeof part === 'object' && !(part instanceof RegExp));
}

function stepsOf(way) {
  const steps = [];
  for (let each = way; each !== null; each = each.before) steps.push(each.name);
  return steps.reverse();
}

// The path from an AST to an object in it; nothing where it isn't there.
function pathTo(top, wanted) {
  const waiting = [{ value: top, way: null }], seen = new Set();
  while (waiting.length > 0) {
    const { value, way } = waiting.pop();
    if (value === wanted) return stepsOf(way);
    if (seen.has(value)) continue;
    seen.add(value);
    for (const [name, part] of partsOf(value).reverse()) waiting.push({ value: part, way: { name, before: way } });
  }
  return null;
}

// What a walk that never ended met: a node that holds itself, or how deep the AST nests; with the path to it.
function endless(top) {
  const onWay = new Set([top]), done = new Set();
  let frame = { value: top, parts: partsOf(top), name: null, before: null, levels: 1 }, deepest = frame;
  const pathOf = (last) => stepsOf(last).slice(1);
  while (frame !== null) {
    const { value, parts } = frame;
    if (parts.length === 0) {
      onWay.delete(value);
      done.add(value);
      frame = frame.before;
      continue;
    }
    const [name, part] = parts.shift();
    if (onWay.has(part)) return { isCycle: true, path: [...pathOf(frame), name] };
    if (done.has(part)) continue;
    onWay.add(part);
    frame = { value: part, parts: partsOf(part), name, before: frame, levels: frame.levels + (Array.isArray(part) ? 0 : 1) };
    if (frame.levels > deepest.levels) deepest = frame;
  }
  return { isCycle: false, levels: deepest.levels, path: pathOf(deepest) };
}

module.exports = { pathTo, endless };
