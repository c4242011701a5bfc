'use strict';
// The fixtures of Babel's packages.
const { existsSync, readFileSync, readdirSync, statSync } = require('fs');
const { extname, join, relative } = require('path');
const { parse } = require('@babel/parser');

const READ = { errorRecovery: true, tokens: false, ranges: false, createParenthesizedExpressions: false };

function optionsIn(folder, inherited) {
  const file = join(folder, 'options.json');
  try {
    return existsSync(file) ? { ...inherited, ...JSON.parse(readFileSync(file, 'utf8')) } : inherited;
  } catch (error) {
    return inherited; // (some are no JSON, to be refused)
  }
}

function inputCase(top, folder, input, options, defaults) {
  const code = readFileSync(join(folder, input), 'utf8'), plugins = [...(options.plugins || [])];
  if (/ts/.test(extname(input)) && !JSON.stringify(plugins).includes('typescript')) plugins.push('typescript');
  const given = { ...defaults, ...options, ...(options.parserOpts || {}), plugins, ...READ, startLine: undefined, startColumn: undefined };
  for (const name of Object.keys(given)) if (given[name] === undefined) delete given[name];
  return { id: relative(top, folder), code, parse: (text) => parse(text, { ...given }) };
}

// Folders with input.* and options.json, which go for those below.
function fixtures(top, defaults = {}) {
  const found = [], walk = (folder, inherited) => {
    const options = optionsIn(folder, inherited), names = readdirSync(folder);
    const input = names.find((name) => /^input\.(?:[cm]?[jt]s|[jt]sx)$/.test(name));
    if (input && !options.throws) {
      const made = inputCase(top, folder, input, options, defaults);
      if (made.code.includes('\ufffd')) return;
      found.push(made);
    }
    for (const name of names) if (statSync(join(folder, name)).isDirectory()) walk(join(folder, name), { ...options, throws: undefined });
  };
  walk(top, {});
  return found;
}

function pluginsFor(name, folder) {
  const isTypescript = /tsx?$/.test(name) || /typescript/.test(folder), isFlow = /flow/.test(folder);
  const all = ['importAssertions', 'decoratorAutoAccessors', 'regexpUnicodeSets', 'explicitResourceManagement', 'exportDefaultFrom'];
  if (!isTypescript) return [...(isFlow ? ['flow', 'jsx'] : ['jsx']), ['decorators', { decoratorsBeforeExport: true }], ...all];
  const isPlain = /\.ts$/.test(name) || !/tsx|jsx/.test(folder);
  return ['typescript', 'decorators-legacy', ...(isPlain ? [] : ['jsx']), ...all];
}

const LOOSE = { sourceType: 'unambiguous', allowReturnOutsideFunction: true, allowAwaitOutsideFunction: true, errorRecovery: true, allowUndeclaredExports: true };

// What the other packages, presets and plugins, are given and give.
function transformed(packages) {
  const found = [], walk = (folder) => {
    for (const name of readdirSync(folder)) {
      const file = join(folder, name);
      if (statSync(file).isDirectory()) {
        if (name !== 'node_modules') walk(file);
      } else if (/^(?:input|output|exec)\.(?:m?js|tsx?|jsx)$/.test(name)) {
        const options = { ...LOOSE, plugins: pluginsFor(name, folder) };
        found.push({ id: relative(packages, file), code: readFileSync(file, 'utf8'), parse: (text) => parse(text, options) });
      }
    }
  };
  for (const name of readdirSync(packages)) {
    const folder = join(packages, name, 'test');
    if (name !== 'babel-parser' && name !== 'babel-generator' && existsSync(folder)) walk(folder);
  }
  return found;
}

// The sources of Babel in TypeScript, with the parentheses of types taken away; by `estree` as typescript-estree has them.
function bareTypes(packages, { estree }) {
  const found = [], options = {
    sourceType: 'module', errorRecovery: true, allowReturnOutsideFunction: true,
    plugins: ['typescript', 'decorators-legacy', 'importAssertions', ...(estree ? ['estree'] : [])],
  };
  const walk = (folder) => {
    for (const name of readdirSync(folder)) {
      const file = join(folder, name);
      if (statSync(file).isDirectory()) {
        if (name !== 'node_modules') walk(file);
      } else if (/\.ts$/.test(name) && !/\.d\.ts$/.test(name)) {
        const code = readFileSync(file, 'utf8'), read = (text) => parse(text, options);
        found.push({ id: relative(packages, file), code, parse: read, made: () => stripped(read(code)) });
      }
    }
  };
  walk(packages);
  return found;
}

function stripped(value) {
  if (Array.isArray(value)) return value.map(stripped);
  if (value === null || typeof value !== 'object' || value instanceof RegExp) return value;
  if (value.type === 'TSParenthesizedType') return stripped(value.typeAnnotation);
  for (const name of Object.keys(value)) if (!/^(?:loc|extra|range|regex|errors)$|[cC]omments$/.test(name)) value[name] = stripped(value[name]);
  return value;
}

module.exports = { fixtures, transformed, bareTypes };
