/** An AST of Babel (a `File`, a `Program`, a statement, an expression, a type) or of ESTree (with its comments in `comments`). */
export interface Ast {
  type: string;
}

/** The source text, or the texts of several sources by their names: for maps and for errors. */
export type Code = string | { [file: string]: string };

export interface SourceMap {
  version: 3;
  file?: string;
  sourceRoot?: string;
  sources: string[];
  sourcesContent?: (string | null)[];
  names: string[];
  mappings: string;
}

export interface PrintOptions {
  /** As short as the grammar allows; names stay. `minified` and `compact` are the same. */
  minify?: boolean;
  minified?: boolean;
  compact?: boolean | 'auto';
  /** Which comments are printed: all (unless given), none, those of licences, or those whose text a function takes. */
  comments?: boolean | 'some' | ((text: string) => boolean);
  /** Babel's name of such a function. */
  shouldPrintComment?: (text: string) => boolean;
  sourceMaps?: boolean;
  sourceFileName?: string;
  sourceRoot?: string;
  /** Whether the map has the source's text (it has unless this is false). */
  sourcesContent?: boolean;
  /** The name of the printed file, for its map. */
  file?: string;
  /** The map of what the source was made of. It takes `@ampproject/remapping` or `source-map`. */
  inputSourceMap?: SourceMap | string;
  /** The version of the language that names and literals are written for. */
  target?: 'es3' | 'es5' | 'es2015' | 'es2016' | 'es2017' | 'es2018' | 'es2019' | 'es2020' | 'es2021' | 'es2022' | 'esnext';
  /** Escapes for all beyond ASCII. */
  asciiOnly?: boolean;
  /** How many columns a line has at most, where the grammar lets it end. */
  maxLine?: number;
  omitLastSemi?: boolean;
  /** What a level of indentation is: a number of blanks from 0 to 10, or as many blanks or tabs; four blanks unless it is given. */
  indent?: number | string;
  /** What ends a line (`lf` unless it is given). Templates and text of JSX keep their own line ends. */
  endOfLine?: 'lf' | 'crlf';
  /** No `</script` in strings. */
  inlineScript?: boolean;
  /** `assert` before the attributes of imports; as the AST says unless this is given. */
  importAssertions?: boolean;
  /** Whether parentheses are added where the text needs them (they are unless this is false). */
  parenthesize?: boolean;
  /** Parentheses round functions that Babel's parser marked are kept. */
  retainFunctionParens?: boolean;
  /** Whether an AST is printed that ECMA-262 has no program for; with `'retry'` if it fails on no other ground, as `return` outside of functions. */
  any?: boolean | 'retry';
}

/** A comment that has no place in the text. */
export interface LeftComment {
  kind: 'Line' | 'Block';
  text: string;
  node: Ast;
}

export interface RawMapping {
  generated: { line: number; column: number };
  original: { line: number; column: number };
  source: string;
  name?: string;
}

export interface Printed {
  code: string;
  map: SourceMap | null;
  rawMappings: RawMapping[] | null;
  left: LeftComment[];
  /** False where `any: 'retry'` was needed: then nothing says that the text is read as the AST. */
  isDerivation: boolean;
}

export interface GeneratorResult {
  code: string;
  map: SourceMap | null;
  decodedMap: undefined;
  rawMappings: RawMapping[] | undefined;
  left: LeftComment[];
  isDerivation: boolean;
}

/** Why there is no text. */
export class PrintError extends Error {
  kind: 'unsupported' | 'not well-formed' | 'not a derivation' | 'too deep' | 'refused' | 'bad option' | 'no program' | 'no library' | 'program ended' | 'bad request' | 'bad tree' | 'bad JSON';
  /** The same, as `ECMAPRINT_NOT_WELL_FORMED`. */
  code: string;
  reason: string;
  /** The way to the node in the AST: names of members, and numbers in lists. */
  path: (string | number)[] | null;
  node: Ast | null;
  /** Where the node stands in the source: lines from 1, columns from 0. */
  loc: { line: number; column: number; filename?: string } | null;
  /** The lines of the source round that place. */
  frame: string | null;
}

export interface PrinterOptions {
  /** The path of the program; else ECMAPRINT, the package of the platform, or PATH tells. */
  program?: string;
  /** The way by which `printSync` asks it: named pipes (Unix), a thread, or a process a call. */
  sync?: 'pipes' | 'thread' | 'spawn';
  /** Whether trees are sent without the members that have their defaults: true unless given. A program that doesn't read one gets all members. */
  isShort?: boolean;
}

/** One running program, which starts with the first call. It ends with this process, or by `end`. */
export class Printer {
  constructor(options?: PrinterOptions);
  print(ast: Ast, options?: PrintOptions, code?: Code): Promise<Printed>;
  printSync(ast: Ast, options?: PrintOptions, code?: Code): Printed;
  generate(ast: Ast, options?: object, code?: Code): GeneratorResult;
  end(): void;
}

export function print(ast: Ast, options?: PrintOptions, code?: Code): Promise<Printed>;
export function printSync(ast: Ast, options?: PrintOptions, code?: Code): Printed;
/** As the default export of `@babel/generator`, by that one's options. */
export function generate(ast: Ast, options?: object, code?: Code): GeneratorResult;
/** Ends the program that the functions share. */
export function end(): void;
