'use strict';
// Early errors that the table leaves out, as each parser tells them.
const EARLY = {
  V8: /already been declared|Duplicate|Illegal (break|continue)|Undefined label|super|new\.target|'?arguments'? is not allowed in class field|[Ll]et is disallowed|let is not allowed|Missing initializer|Delete|Private field|Export .* is not defined/,
  acorn: /already been declared|Export .* is not defined|Unsyntactic (break|continue)|super|new\.target|argument|let is disallowed|Label .* is already|Duplicate export/,
  Babel: /VarRedeclaration|ParamDupe|LabelRedeclaration|DuplicateProto|StrictDelete|UnexpectedSuper|IllegalBreakContinue|ModuleExportUndefined|DuplicateExport|UnexpectedNewTarget|ArgumentsInClass|LetInLexicalBinding/,
};

// What acorn and Babel take, and V8 and the standard refuse: all of a class is strict code, its name too (15.7.1).
const TAKEN = [{ what: 'eval or arguments as a target', in: /class (eval|ev\\u0061l|arguments)\b/ }];

// What Babel refuses, and V8, acorn and the standard take: a function expression has its name by its own parameters (15.2), also among those of an
// async arrow function.
const REFUSED = [{ by: 'Babel', why: /AwaitBindingIdentifier/, in: /async\b.*function\*? ?(await|aw\\u0061it)/s }];

module.exports = { EARLY, TAKEN, REFUSED };
