'use strict';
// The exact value of a numeric literal: its digits, without zeros at their ends, times a power of ten.

// What a tree may hold of a number, and beyond which the nearest double stands in its place.
const MOST_DIGITS = 800;
const FARTHEST = 1100;

function decimal(digits, exponent) {
  const significant = digits.replace(/^0+/, '');
  if (significant === '') return { negative: false, digits: '0', exponent: 0 };
  const shorter = significant.replace(/0+$/, '');
  return { negative: false, digits: shorter, exponent: exponent + significant.length - shorter.length };
}

function valueOf(spelling) {
  const digits = spelling.replace(/_/g, '');
  if (/^0[xob]/i.test(digits)) return decimal(BigInt(digits).toString(), 0);
  if (/^0[0-7]+$/.test(digits)) return decimal(BigInt('0o' + digits.slice(1)).toString(), 0);
  const [, whole, part = '', exponent = '0'] = /^(\d*)(?:\.(\d*))?(?:e([+-]?\d+))?$/i.exec(digits);
  return decimal(whole + part, Number(exponent) - part.length);
}

// A spelling that is its own digits, of a number that is printed so.
const SHORT_INTEGER = /^(?:\d|[1-9]\d{0,13}[1-9])$/;

const fits = (value) => value.digits.length <= MOST_DIGITS && Math.abs(value.exponent) <= FARTHEST;

// The value of a literal, and its raw where it stands for that. `double` is what an engine reads.
function numberOf(spelling, double) {
  if (double === Infinity) return { value: 'Infinity', raw: spelling };
  const exact = valueOf(spelling);
  return fits(exact) ? { value: { Finite: exact }, raw: spelling } : { value: { Finite: valueOf(String(double)) }, raw: null };
}

const RADIXES = { '0x': 'Hex', '0o': 'Octal', '0b': 'Binary' };

// The radix and the digits of a big integer.
function bigIntegerOf(spelling) {
  const digits = spelling.slice(0, -1).replace(/_/g, '');
  const radix = RADIXES[digits.slice(0, 2).toLowerCase()];
  return radix ? { radix, digits: digits.slice(2) } : { radix: 'Decimal', digits };
}

module.exports = { numberOf, bigIntegerOf, SHORT_INTEGER };
