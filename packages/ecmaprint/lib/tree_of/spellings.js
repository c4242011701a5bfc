'use strict';
// What an AST says of the spelling of a literal, and what a spelling means. Who changes a literal's value may leave its spelling.

const ESCAPES = { n: '\n', t: '\t', r: '\r', b: '\b', f: '\f', v: '\v' };
const ESCAPE = /\\(?:u\{([\da-f]+)\}|u([\da-f]{4})|x([\da-f]{2})|([0-3]?[0-7]{1,2})|(\r\n|[^]))/gi;

// The value of a string that is spelled so, with its quotes.
function decoded(raw) {
  const inner = raw.slice(1, -1);
  if (!inner.includes('\\')) return inner;
  return inner.replace(ESCAPE, (_, braced, four, two, octal, other) => {
    if (braced || four || two) return String.fromCodePoint(parseInt(braced || four || two, 16));
    if (octal) return String.fromCharCode(parseInt(octal, 8));
    return /^[\r\n\u2028\u2029]/.test(other) ? '' : ESCAPES[other] || other;
  });
}

// (`&eacute;` isn't looked up: a text with references is spelled anew)
const SPELLS = {
  StringLiteral: (raw, value) => /^(["'])[^]*\1$/.test(raw) && raw.length > 1 && decoded(raw) === value,
  NumericLiteral: (raw, value) => Number(raw.replace(/_/g, '').replace(/^0([0-7]+)$/, '0o$1')) === (value === null ? Infinity : value),
  BigIntLiteral: (raw, value) => /^\w+n$/.test(raw) && BigInt(raw.slice(0, -1).replace(/_/g, '')) === BigInt(value),
  JSXText: (raw, value) => raw === value && !raw.includes('&'),
};

// The spelling that an AST gives of a literal, where it is one of the literal's value; else nothing.
function rawOf({ type, value, extra }) {
  if (!extra || typeof extra.raw !== 'string') return null;
  const { raw, rawValue } = extra;
  if (rawValue !== undefined) return rawValue === value ? raw : null;
  try {
    return SPELLS[type] && SPELLS[type](raw, value) ? raw : null;
  } catch (error) {
    return null; // (no number, or no code point, is spelled so)
  }
}

// The spelling that an AST gives of an attribute's string in JSX, where references stand and nothing is escaped.
function attributeRawOf({ value, extra }) {
  if (!extra || typeof extra.raw !== 'string') return null;
  const { raw, rawValue } = extra;
  if (rawValue !== undefined) return rawValue === value ? raw : null;
  return /^(["'])[^]*\1$/.test(raw) && raw.length > 1 && dereferenced(raw.slice(1, -1)) === value ? raw : null;
}

const NAMED = { amp: '&', lt: '<', gt: '>', quot: '"', apos: "'" };

// What a text with references means. Of the names of HTML these five are looked up: a text with others is spelled anew.
const dereferenced = (text) => text.replace(/&(?:#x([\da-f]{1,6})|#(\d{1,7})|(\w+));/gi, (all, hex, decimal, name) => {
  const code = hex ? parseInt(hex, 16) : decimal ? Number(decimal) : null;
  if (code !== null) return code > 0x10ffff ? all : String.fromCodePoint(code);
  return Object.hasOwn(NAMED, name) ? NAMED[name] : all;
});

const REFERENCES = { '&': '&amp;', '<': '&lt;', '>': '&gt;', '{': '&#123;', '}': '&#125;', '"': '&quot;' };

// A text of JSX with references for these marks.
const referenced = (text, marks) => text.replace(marks, (mark) => REFERENCES[mark]);

module.exports = { attributeRawOf, decoded, rawOf, referenced };
