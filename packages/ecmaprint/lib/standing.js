'use strict';
// A node that is no program, as a program that it stands in: so it's printed, and what stands round it is taken off the text.
const { NoTree } = require('./tree_of/files.js');

const BODY = { type: 'Program', sourceType: 'module', directives: [] };
const same = (text) => text;
const whole = (ast) => ({ ast, textOf: same, positionsOf: same });

const placeholder = () => ({ type: 'Identifier', name: '_' });
const assigned = (left, right) => ({ type: 'ExpressionStatement', expression: { type: 'AssignmentExpression', operator: '=', left, right } });

// Positions in a text that a number of columns was taken off, at its beginning.
const shifted = (columns) => (positions) => positions
  .map(([position, line, column]) => [position, line, line === 0 ? column - columns : column]).filter(([, line, column]) => line > 0 || column >= 0);

const COMMENTS = /^(?:\/\*[^]*?\*\/\s*|\/\/.*\r?\n\s*)*/;

// A node in a statement, of whose text the beginning (behind comments that went there) and the end match these.
function within(statement, before, after) {
  let columns = 0;
  const textOf = (text) => {
    const [comments] = COMMENTS.exec(text), rest = text.slice(comments.length), found = before.exec(rest);
    columns = found === null ? 0 : found[0].length;
    return comments + rest.slice(columns).replace(after, '');
  };
  return { ast: { ...BODY, body: [statement] }, textOf, positionsOf: (positions) => shifted(columns)(positions) };
}

const IS_STATEMENT = /Statement$|Declaration$|^TSDeclareFunction$|^TSExportAssignment$/;
const IS_TYPE = /^TS(?:\w+Type|\w+Keyword|Type(?:Reference|Query|Literal|Predicate|Operator))$/;
const NONE_ALONE = /^(?:Spread|Rest|Template)Element$|^(?:AssignmentPattern|ClassBody|SwitchCase|CatchClause|Directive|DirectiveLiteral|InterpreterDirective|Decorator|Super|Import|PrivateName|VariableDeclarator|Property|PropertyDefinition|MethodDefinition|StaticBlock)$|Specifier$|Attribute$|^Object(?:Property|Method)$|^Class(?:Private|Accessor)?(?:Method|Property)$|^JSX(?!Element$|Fragment$)|^TS.*(?:Parameter|Signature|Declaration|Member|Annotation|Instantiation|Body|Block)|^ImportAttribute$/;

// How a node is printed: `ast` is a program with it, `textOf` its text in that program's, and `positionsOf` the positions in this text.
function standing(node) {
  const { type } = node;
  if (type === 'File' || type === 'Program') return whole(node);
  if (type === 'ArrayPattern') return within(assigned(node, placeholder()), /^/, / ?= ?_;?$/);
  if (type === 'ObjectPattern') return within(assigned(node, placeholder()), /^\(/, / ?= ?_\);?$/);
  if (type === 'SequenceExpression') return within({ type: 'ExpressionStatement', expression: node }, /^/, /;?$/);
  if (IS_TYPE.test(type)) return within({ type: 'TSTypeAliasDeclaration', id: placeholder(), typeAnnotation: node }, /^type _ ?= ?/, /;?$/);
  if (IS_STATEMENT.test(type) && !/^TS(?:Call|Construct)/.test(type)) return whole({ ...BODY, body: [node] });
  if (NONE_ALONE.test(type)) throw new NoTree(`${type} isn't printed alone: print what holds it`, node);
  return within(assigned(placeholder(), node), /^_ ?= ?/, /;?$/);
}

module.exports = { standing };
