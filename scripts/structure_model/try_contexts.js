'use strict';
// Each thing in each place: the table says that a tree is a derivation exactly where V8, acorn and Babel take its text, and Babel reads this tree.
const vm = require('vm');
const { check, parenthesize } = require('./structure.js');
const { contexts } = require('./contexts.js');
const { dice } = require('./random.js');
const { allPrinted, read, acornRefuses, areSame } = require('./texts.js');
const { EARLY, TAKEN, REFUSED } = require('./early.js');

const AT_ONCE = 250;

// What V8 says against a text; nothing where it takes it.
function v8Refuses(text, isModule) {
  try {
    if (isModule) new vm.SourceTextModule(text);
    else new vm.Script(text);
    return null;
  } catch (error) {
    return error.message;
  }
}

// What Babel says against a tree in its text; nothing where it reads this very tree.
function babelRefuses(text, isModule, tree) {
  const { error, errors, tree: got } = read(text, isModule, {});
  if (error) return error;
  if (errors.length) return errors.join(' ');
  return areSame(got, tree) ? null : 'another tree';
}

// What V8 and acorn don't know.
const isNew = (tree) => /"decorators":\[\{|"Using|"AutoAccessor"/.test(JSON.stringify(tree));

// What each parser says against a tree that it knows.
function refusals(text, tree) {
  const isModule = 'Module' in tree;
  if (isNew(tree)) return { Babel: babelRefuses(text, isModule, tree) };
  return { V8: v8Refuses(text, isModule), acorn: acornRefuses(text, isModule), Babel: babelRefuses(text, isModule, tree) };
}

// Those that say otherwise than the table, but for an early error that it leaves out, and for what is known of one of them. Who reads another tree
// takes another text.
function others(faults, text, said) {
  const derives = faults.length === 0;
  if (!derives && (said.Babel === 'another tree' || TAKEN.some(({ what, in: found }) => what === faults[0].what && found.test(text)))) return [];
  const isKnown = (name, why) => EARLY[name].test(why) || REFUSED.some((one) => one.by === name && one.why.test(why) && one.in.test(text));
  return Object.entries(said).filter(([name, why]) => (derives ? why !== null && !isKnown(name, why) : why === null)).map(([name]) => name);
}

class Trial {
  constructor() {
    this.counts = { programs: 0, derivations: 0, alone: 0, disagreements: 0 };
    this.found = new Map();
  }

  note(kind, text) {
    const texts = this.found.get(kind) || [];
    this.found.set(kind, [...texts, text]);
  }

  // A parser that is alone against the table and the two others is wrong; Babel isn't where it reads another tree.
  look({ text: where, goal, tree }, text) {
    const faults = check(tree, { returnsAnywhere: false, annexB: true }), derives = faults.length === 0, said = refusals(text, tree), against = others(faults, text, said);
    this.counts.programs++;
    if (derives) this.counts.derivations++;
    if (against.length === 0) return;
    const isAlone = against.length === 1 && Object.keys(said).length > 1 && !(derives && said.Babel === 'another tree');
    this.counts[isAlone ? 'alone' : 'disagreements']++;
    const why = against.map((name) => `${name}: ${said[name] === null ? 'takes it' : said[name].replace(/ ?\(\d+:\d+\)/, '')}`).join('; ');
    const fault = derives ? 'no fault by the table' : `by the table ${faults[0].what}`;
    this.note(`${isAlone ? 'alone' : 'DISAGREE'} ${fault}, but ${why}`, `${goal}: ${text.trim()} (${where})`);
  }
}

// About so many programs by chance, where a number is asked for.
const ALL = { flat: 29_449, deep: 2_457_000 };
function asked({ trees, deep, from }) {
  const next = dice(from + 1), odds = trees === null ? 1 : trees / ALL[deep ? 'deep' : 'flat'];
  return contexts({ deep, isTaken: () => next() % 1_000_000 < odds * 1_000_000 });
}

function tryContexts(options) {
  const trial = new Trial(), parts = new Map();
  const tell = (kind) => {
    const some = parts.get(kind);
    parts.delete(kind);
    allPrinted(options.program, [], some.map(({ tree }) => tree)).forEach((text, at) => { if (text !== null) trial.look(some[at], text); });
  };
  for (const made of asked(options)) {
    const tree = parenthesize(made.tree), kind = Object.keys(tree)[0], some = parts.get(kind) || [];
    parts.set(kind, some);
    some.push({ ...made, tree });
    if (some.length === AT_ONCE) tell(kind);
  }
  [...parts.keys()].forEach(tell);
  const { programs, derivations, alone, disagreements } = trial.counts;
  console.log(`${programs} programs, ${derivations} derivations; ${alone} where one parser alone says otherwise; ${disagreements} disagreements`);
  const shown = [...trial.found].filter(([kind]) => options.verbose || kind.startsWith('DISAGREE')).sort(([, one], [, other]) => other.length - one.length);
  for (const [kind, texts] of shown) {
    texts.sort((one, other) => one.length - other.length).slice(0, 2).forEach((text) => console.log(`  ${texts.length} x ${kind}: ${JSON.stringify(text.slice(0, 200))}`));
  }
  return disagreements === 0;
}

module.exports = { tryContexts };
