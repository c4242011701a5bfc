'use strict';
// Types, and what else TypeScript adds.
const { quoted } = require('./json_text.js');

const KEYWORD = /^TS(Any|Unknown|Number|Object|Boolean|BigInt|String|Symbol|Void|Undefined|Null|Never|Intrinsic)Keyword$/;
const OPERATORS = { keyof: 'KeyOf', unique: 'Unique', readonly: 'ReadOnly' };
const SIGNS = new Map([[true, 'True'], ['+', 'Plus'], ['-', 'Minus'], [false, ''], [null, ''], [undefined, '']]);
const MARK = /(?:in|out|const)(?:\s|\/\*[^]*?\*\/|\/\/.*)+/y;

const plain = (name) => (tree, node) => {
  tree.put(`{"${name}":{"type_ann":`);
  tree.type(node.typeAnnotation);
  tree.putEnd(node, '}}');
};

// Types in a list: `begin` has the names of the variants, and `end` as many braces.
const ofTypes = (begin, end) => (tree, node) => {
  tree.put(begin);
  tree.listed(node.types, 'type');
  tree.put(tree.at(node) + end);
};

const TYPES = {
  TSThisType: (tree, node) => tree.put(`{"TsThisType":{${tree.only(node)}}}`),
  TSFunctionType: (tree, node) => {
    tree.put('{"TsFnOrConstructorType":{"TsFnType":');
    tree.functionType(node);
    tree.put('}}');
  },
  TSConstructorType: (tree, node) => {
    tree.put('{"TsFnOrConstructorType":{"TsConstructorType":');
    tree.functionType(node, tree.flag(',"is_abstract":', node.abstract));
    tree.put('}}');
  },
  TSTypeReference: (tree, node) => {
    tree.put('{"TsTypeRef":{"type_name":');
    tree.entity(node.typeName);
    tree.optional(',"type_params":', node.typeParameters, 'typeArguments');
    tree.putEnd(node, '}}');
  },
  TSTypeQuery: (tree, node) => {
    tree.put('{"TsTypeQuery":{"expr_name":');
    tree.queried(node.exprName);
    tree.optional(',"type_args":', node.typeParameters, 'typeArguments');
    tree.putEnd(node, '}}');
  },
  TSTypeLiteral: (tree, node) => {
    tree.put('{"TsTypeLit":{"members":');
    tree.listed(node.members, 'typeElement');
    tree.putEnd(node, '}}');
  },
  TSArrayType: (tree, node) => {
    tree.put('{"TsArrayType":{"elem_type":');
    tree.type(node.elementType);
    tree.putEnd(node, '}}');
  },
  TSTupleType: (tree, node) => {
    tree.put('{"TsTupleType":{"elem_types":');
    tree.listed(node.elementTypes, 'tupleElement');
    tree.putEnd(node, '}}');
  },
  TSOptionalType: plain('TsOptionalType'),
  TSRestType: plain('TsRestType'),
  TSParenthesizedType: plain('TsParenthesizedType'),
  TSUnionType: ofTypes('{"TsUnionOrIntersectionType":{"TsUnionType":{"types":', '}}}'),
  TSIntersectionType: ofTypes('{"TsUnionOrIntersectionType":{"TsIntersectionType":{"types":', '}}}'),
  TSConditionalType: (tree, node) => {
    tree.put('{"TsConditionalType":{"check_type":');
    tree.type(node.checkType);
    tree.put(',"extends_type":');
    tree.type(node.extendsType);
    tree.put(',"true_type":');
    tree.type(node.trueType);
    tree.put(',"false_type":');
    tree.type(node.falseType);
    tree.putEnd(node, '}}');
  },
  TSInferType: (tree, node) => {
    tree.put('{"TsInferType":{"type_param":');
    tree.typeParam(node.typeParameter);
    tree.putEnd(node, '}}');
  },
  TSTypeOperator: (tree, node) => {
    tree.putOperator('{"TsTypeOperator":{"op":"', OPERATORS, node);
    tree.put('","type_ann":');
    tree.type(node.typeAnnotation);
    tree.putEnd(node, '}}');
  },
  TSIndexedAccessType: (tree, node) => {
    tree.put('{"TsIndexedAccessType":{"obj_type":');
    tree.type(node.objectType);
    tree.put(',"index_type":');
    tree.type(node.indexType);
    tree.putEnd(node, '}}');
  },
  TSMappedType: (tree, node) => {
    tree.put('{"TsMappedType":{"type_param":');
    tree.typeParam(node.typeParameter);
    tree.put(`${tree.sign(',"readonly":', node, node.readonly)}${tree.sign(',"optional":', node, node.optional)}`);
    tree.optional(',"name_type":', node.nameType, 'type');
    tree.optional(',"type_ann":', node.typeAnnotation, 'type');
    tree.putEnd(node, '}}');
  },
  TSLiteralType: (tree, node) => {
    tree.put('{"TsLitType":{"lit":');
    tree.literalType(node.literal);
    tree.putEnd(node, '}}');
  },
  TSTypePredicate: (tree, node) => {
    tree.put('{"TsTypePredicate":{"param_name":');
    tree.predicateName(node.parameterName);
    tree.put(tree.flag(',"asserts":', node.asserts));
    tree.optional(',"type_ann":', node.typeAnnotation, 'typeAnnotation');
    tree.putEnd(node, '}}');
  },
  TSImportType: (tree, node) => tree.within('{"TsImportType":', 'importType', node),
};

const LITERALS = {
  NumericLiteral: (tree, node) => tree.within('{"Number":', 'number', node),
  StringLiteral: (tree, node) => tree.within('{"Str":', 'string', node),
  BooleanLiteral: (tree, node) => tree.put(`{"Bool":${tree.boolean(node)}}`),
  BigIntLiteral: (tree, node) => tree.within('{"BigInt":', 'bigInteger', node),
  TemplateLiteral: (tree, node) => {
    tree.put('{"Tpl":{"quasis":');
    tree.listed(node.quasis, 'quasi');
    tree.list(',"types":', node.expressions, 'type');
    tree.putEnd(node, '}}');
  },
  UnaryExpression: (tree, node) => tree.negative(node),
};

const ELEMENTS = {
  TSCallSignatureDeclaration: (tree, node) => tree.within('{"TsCallSignatureDecl":', 'functionType', node),
  TSConstructSignatureDeclaration: (tree, node) => tree.within('{"TsConstructSignatureDecl":', 'functionType', node),
  TSPropertySignature: (tree, node) => {
    tree.put('{"TsPropertySignature":{');
    tree.signatureKey(node);
    tree.put(`${tree.flag(',"readonly":', node.readonly)}${tree.flag(',"optional":', node.optional)}`);
    tree.optional(',"type_ann":', node.typeAnnotation, 'typeAnnotation');
    tree.putEnd(node, '}}');
  },
  TSMethodSignature: (tree, node) => tree.methodSignature(node),
  TSIndexSignature: (tree, node) => tree.within('{"TsIndexSignature":', 'indexSignature', node),
};

const types = {
  type(node) {
    const keyword = KEYWORD.exec(node.type);
    if (keyword) return this.put(`{"TsKeywordType":{"kind":"Ts${keyword[1]}Keyword"${this.at(node)}}}`);
    const made = TYPES[node.type];
    return made ? made(this, node) : this.refuse(node, 'a type');
  },

  // `readonly` or `?` of a mapped type, with its sign
  sign(begin, node, mark) {
    if (!SIGNS.has(mark)) this.refuse(node, `printed with the sign ${mark}`);
    return SIGNS.get(mark) === '' ? this.none(begin) : `${begin}"${SIGNS.get(mark)}"`;
  },

  typeAnnotation(node) {
    if (node.type !== 'TSTypeAnnotation') this.refuse(node, 'a type');
    this.put('{"type_ann":');
    this.type(node.typeAnnotation);
    this.putEnd(node, '}');
  },

  // An expression with a type: `a as b`.
  typed(node) {
    this.put('{"expr":');
    this.expr(node.expression);
    this.put(',"type_ann":');
    this.type(node.typeAnnotation);
    this.putEnd(node, '}');
  },

  instantiation(node) {
    this.put('{"expr":');
    this.expr(node.expression);
    this.put(',"type_args":');
    this.typeArguments(node.typeParameters);
    this.putEnd(node, '}');
  },

  typeParams(node) {
    this.put('{"params":');
    this.listed(node.params, 'typeParam');
    this.putEnd(node, '}');
  },

  typeArguments(node) {
    this.put('{"params":');
    this.listed(node.params, 'type');
    this.putEnd(node, '}');
  },

  // Its name stands behind the words `in`, `out` and `const`.
  typeParam(node) {
    let at = node.start;
    for (const mark of [node.in, node.out, node.const].filter((each) => each)) {
      MARK.lastIndex = at;
      const found = mark && MARK.exec(this.text);
      if (found) at += found[0].length;
    }
    const place = this.placed(this.nameSpan(node.name, at, at + node.name.length));
    this.put(`{"name":{"sym":${quoted(node.name)}${place}${this.no(',"optional":')}}`);
    this.put(`${this.flag(',"is_in":', node.in)}${this.flag(',"is_out":', node.out)}${this.flag(',"is_const":', node.const)}`);
    this.optional(',"constraint":', node.constraint, 'type');
    this.optional(',"default":', node.default, 'type');
    this.putEnd(node, '}');
  },

  entity(node) {
    if (node.type === 'TSQualifiedName') {
      this.put('{"TsQualifiedName":{"left":');
      this.entity(node.left);
      this.put(',"right":');
      this.identName(node.right);
      this.putEnd(node, '}}');
    } else if (node.type === 'ThisExpression') this.put(`{"Ident":{"sym":"this"${this.at(node)}${this.no(',"optional":')}}}`);
    else this.within('{"Ident":', 'ident', node);
  },

  // The same as an expression, as behind `implements`.
  entityExpr(node) {
    if (node.type !== 'TSQualifiedName') return this.expr(node);
    this.put('{"Member":{"obj":');
    this.entityExpr(node.left);
    this.put(',"prop":{"Ident":');
    this.identName(node.right);
    return this.put(`}${this.at(node)}}}`);
  },

  heritage(node) {
    this.put('{"expr":');
    this.entityExpr(node.expression);
    this.optional(',"type_args":', node.typeParameters, 'typeArguments');
    this.putEnd(node, '}');
  },

  queried(node) {
    return node.type === 'TSImportType' ? this.within('{"Import":', 'importType', node) : this.within('{"TsEntityName":', 'entity', node);
  },

  importType(node) {
    this.put('{"arg":');
    this.string(node.argument);
    this.optional(',"qualifier":', node.qualifier, 'entity');
    this.optional(',"type_args":', node.typeParameters, 'typeArguments');
    this.putEnd(node, '}');
  },

  predicateName(node) {
    return node.type === 'TSThisType' ? this.put(`{"TsThisType":{${this.only(node)}}}`) : this.within('{"Ident":', 'ident', node);
  },

  // A parameter of a type is a name, a pattern or a rest.
  typedParam(node) {
    if (!/^(?:Identifier|(?:Array|Object)Pattern|RestElement)$/.test(node.type)) this.refuse(node, 'a parameter of a type');
    this.pat(node);
  },

  // (a method has its key first)
  functionType(node, others = '', hasKey = false) {
    this.put(hasKey ? ',"params":' : '{"params":');
    this.listed(node.parameters, 'typedParam');
    this.optional(',"type_ann":', node.typeAnnotation, 'typeAnnotation');
    this.optional(',"type_params":', node.typeParameters, 'typeParams');
    this.put(`${others}${this.at(node)}}`);
  },

  indexSignature(node) {
    this.put('{"params":');
    this.listed(node.parameters, 'typedParam');
    this.optional(',"type_ann":', node.typeAnnotation, 'typeAnnotation');
    this.put(`${this.flag(',"readonly":', node.readonly)}${this.flag(',"is_static":', node.static)}${this.at(node)}}`);
  },

  interface(node) {
    const { body } = node;
    this.put('{"id":');
    this.ident(node.id);
    this.put(this.flag(',"declare":', node.declare));
    this.optional(',"type_params":', node.typeParameters, 'typeParams');
    this.list(',"extends":', node.extends, 'heritage');
    this.put(',"body":{"body":');
    this.listed(body.body, 'typeElement');
    this.put(`${this.at(body)}}${this.at(node)}}`);
  },

  typeElement(node) {
    const made = ELEMENTS[node.type];
    return made ? made(this, node) : this.refuse(node, 'a member of a type');
  },

  signatureKey(node) {
    this.put('"key":');
    this.expr(node.key);
    this.put(this.flag(',"computed":', node.computed));
  },

  methodSignature(node) {
    const { kind } = node;
    if (kind === 'get' || kind === 'set') this.without(node, 'typeParameters', 'optional', kind === 'get' ? 'parameters' : 'typeAnnotation');
    if (kind === 'set' && node.parameters.length !== 1) this.refuse(node, 'printed: it sets by a parameter');
    this.put(`{"${kind === 'get' ? 'TsGetterSignature' : kind === 'set' ? 'TsSetterSignature' : 'TsMethodSignature'}":{`);
    this.signatureKey(node);
    if (kind === 'get') this.optional(',"type_ann":', node.typeAnnotation, 'typeAnnotation');
    if (kind === 'set') {
      this.put(',"param":');
      this.typedParam(node.parameters[0]);
    }
    if (kind === 'get' || kind === 'set') this.putEnd(node, '}');
    else this.functionType(node, this.flag(',"optional":', node.optional), true);
    this.put('}');
  },

  tupleElement(node) {
    const label = node.type === 'TSNamedTupleMember' ? node.label : null, member = node.type === 'TSRestType' ? node.typeAnnotation : null;
    if (member !== null && member.type === 'TSNamedTupleMember') return this.restElement(node, member);
    this.put('{"ty":');
    this.type(label === null ? node : node.elementType);
    if (label === null) this.put(this.none(',"label":'));
    else {
      this.without(label, 'typeAnnotation', 'optional', 'decorators');
      this.put(`,"label":{"Ident":{"id":{"sym":${quoted(label.name)}${this.at(label)}${this.flag(',"optional":', node.optional)}}${this.none(',"type_ann":')}}}`);
    }
    return this.putEnd(node, '}');
  },

  // `...a: b` of a tuple
  restElement(node, member) {
    this.without(member, 'optional');
    const { label, elementType } = member;
    this.put('{"label":{"Rest":{"arg":{"Ident":{"id":');
    this.ident(label);
    this.put(`${this.none(',"type_ann":')}}}${this.token(',"dot3_token":', this.between(node.start, node.start + 3))}${this.none(',"type_ann":')}`);
    this.put(`${this.placed(this.between(node.start, label.end))}}},"ty":`);
    this.type(elementType);
    this.putEnd(node, '}');
  },

  literalType(node) {
    const made = LITERALS[node.type];
    return made ? made(this, node) : this.refuse(node, 'a type');
  },

  // `-1`: the sign is the number's own
  negative(node) {
    const { argument } = node, isBig = argument.type === 'BigIntLiteral';
    if (node.operator !== '-' || !(isBig || argument.type === 'NumericLiteral')) this.refuse(node, 'a type but for the minus of a number');
    if (isBig) this.within('{"BigInt":', 'negativeBigInteger', node);
    else this.within('{"Number":', 'negativeNumber', node);
  },

  negativeNumber(node) {
    this.numberAt(this.at(node), this.spelled(node.argument), node.argument.value, { isNegative: true });
  },

  negativeBigInteger(node) {
    this.bigIntegerAt(this.at(node), this.spelled(node.argument), null, true);
  },

  enumMember(node) {
    this.put('{"id":');
    this.exportName(node.id);
    this.optional(',"init":', node.initializer, 'expr');
    this.putEnd(node, '}');
  },
};

module.exports = types;
