'use strict';
// What scripts/dev/jsx-trees and scripts/dev/ts-trees make trees with: the words that they are given, chance, and how much may still be made.
const DEEPEST = 118; // the program reads 127 levels of JSON, some of which stand round a tree
const ROOTS = ['Expr', 'Stmt', 'ModuleItem', 'Program'];
const options = { seed: 1, n: 10, size: 40, root: 'Expr', plain: false };

// Ends with the comment at the head of the script, or with its line of words where they are wrong.
function tellWords(areWrong) {
  const [, head] = /'use strict';\n((?:\/\/.*\n)+)/.exec(require('fs').readFileSync(process.argv[1], 'utf8'));
  const text = head.replace(/^\/\/ ?/gm, '').trim();
  if (areWrong) console.error(`${/^usage:.*/m.exec(text)[0]} (--help tells more)`);
  else console.log(text);
  process.exit(areWrong ? 2 : 0);
}

function take(words) {
  if (words.includes('-h') || words.includes('--help')) tellWords(false);
  for (let at = 0; at < words.length; at++) {
    const name = words[at].slice(2), value = words[at + 1];
    if (words[at] === '--plain') options.plain = true;
    else if (words[at] === '--root' && ROOTS.includes(value)) options.root = words[++at];
    else if (['--seed', '--n', '--size'].includes(words[at]) && /^\d+$/.test(value)) options[name] = Number(words[++at]);
    else tellWords(true);
  }
}

take(process.argv.slice(2));
let state = (options.seed * 2654435761) >>> 0 || 1;
function below(count) {
  state ^= state << 13;
  state >>>= 0;
  state ^= state >>> 17;
  state ^= state << 5;
  state >>>= 0;
  return state % count;
}

// How many levels of JSON a node has.
function depth(node) {
  return node !== null && typeof node === 'object' ? 1 + Math.max(0, ...Object.values(node).map(depth)) : 0;
}

const dice = {
  options,
  below,
  left: 0, // how many nodes may still be made
  isOdd: false, // whether something may be ill-formed
  chance: (parts) => below(1000) < parts * 1000,
  pick: (some) => some[below(some.length)],
  odd: () => dice.isOdd && dice.chance(0.2),
  span: () => ({ lo: 0, hi: 0 }),

  // A list that is short where little may still be made.
  few(make) {
    const found = [];
    for (let count = dice.left > 0 ? dice.pick([0, 1, 1, 2]) : 0; count > 0; count--) found.push(make(found.length));
    return found;
  },

  // Prints the trees that are asked for, each by the function of its root.
  print(roots) {
    for (let made = 0; made < options.n; ) {
      dice.left = options.size;
      dice.isOdd = !options.plain && dice.chance(0.08);
      const tree = roots[options.root]();
      if (depth(tree) > DEEPEST) continue;
      process.stdout.write(JSON.stringify({ tree }) + '\n');
      made++;
    }
  },
};

module.exports = dice;
