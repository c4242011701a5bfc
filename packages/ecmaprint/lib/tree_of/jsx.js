'use strict';
// Elements and fragments of JSX.

const NAMES = {
  JSXIdentifier: (tree, node) => {
    tree.putNamed('{"Ident":{"sym":', node);
    tree.putFlag(',"optional":', false);
    tree.put('}}');
  },
  JSXMemberExpression: (tree, node) => {
    tree.put('{"JSXMemberExpr":{"obj":');
    tree.tagName(node.object);
    tree.put(',"prop":');
    tree.tagIdentName(node.property);
    tree.put('}}');
  },
  JSXNamespacedName: (tree, node) => {
    tree.put('{"JSXNamespacedName":{"ns":');
    tree.tagIdentName(node.namespace);
    tree.put(',"name":');
    tree.tagIdentName(node.name);
    tree.put('}}');
  },
};

const VALUES = {
  StringLiteral: (tree, node) => {
    tree.put('{"Lit":{"Str":');
    tree.jsxString(node);
    tree.put('}}');
  },
  JSXExpressionContainer: (tree, node) => tree.within('{"JSXExprContainer":', 'jsxContainer', node),
  JSXElement: (tree, node) => tree.within('{"JSXElement":', 'jsxElement', node),
  JSXFragment: (tree, node) => tree.within('{"JSXFragment":', 'jsxFragment', node),
};

const CHILDREN = {
  JSXText: (tree, node) => tree.within('{"JSXText":', 'jsxText', node),
  JSXExpressionContainer: VALUES.JSXExpressionContainer,
  JSXSpreadChild: (tree, node) => tree.within('{"JSXSpreadChild":', 'parentheses', node),
  JSXElement: VALUES.JSXElement,
  JSXFragment: VALUES.JSXFragment,
};

const jsx = {
  jsxElement(node) {
    this.put('{"opening":');
    this.jsxOpening(node.openingElement);
    this.list(',"children":', node.children, 'jsxChild');
    this.optional(',"closing":', node.closingElement, 'jsxClosing');
    this.putEnd(node, '}');
  },

  jsxOpening(node) {
    this.put('{"name":');
    this.tagName(node.name);
    this.list(',"attrs":', node.attributes, 'jsxAttribute');
    this.put(this.flag(',"self_closing":', node.selfClosing));
    this.optional(',"type_args":', node.typeParameters, 'typeArguments');
    this.putEnd(node, '}');
  },

  jsxClosing(node) {
    this.put('{"name":');
    this.tagName(node.name);
    this.putEnd(node, '}');
  },

  jsxFragment(node) {
    this.put(`{"opening":{${this.only(node.openingFragment)}},"closing":{${this.only(node.closingFragment)}}`);
    this.list(',"children":', node.children, 'jsxChild');
    this.putEnd(node, '}');
  },

  tagName(node) {
    NAMES[node.type](this, node);
  },

  tagIdentName(node) {
    this.putNamed('{"sym":', node);
    this.put('}');
  },

  jsxAttribute(node) {
    if (node.type === 'JSXSpreadAttribute') return this.within('{"SpreadElement":', 'spread', node);
    this.put('{"JSXAttr":{"name":');
    if (node.name.type === 'JSXNamespacedName') this.tagName(node.name);
    else this.within('{"Ident":', 'tagIdentName', node.name);
    this.optional(',"value":', node.value, 'jsxValue');
    return this.putEnd(node, '}}');
  },

  jsxValue(node) {
    const made = VALUES[node.type];
    return made ? made(this, node) : this.refuse(node, 'the value of an attribute');
  },

  // The string of an attribute: no backslash escapes anything in it.
  jsxString(node) {
    this.putString(node.value, this.spelled(node));
    this.putEnd(node, '}');
  },

  // A text between tags is printed by its value, so that is the text as it is spelled: of `&amp;lt;` a decoded `&lt;` would be printed, and
  // read as `<`. Babel takes `>` and `}`, too, which the grammar of JSX has as references alone.
  jsxText(node) {
    const spelled = this.spelled(node).replace(/>/g, '&gt;').replace(/\}/g, '&#125;');
    this.putString(spelled, spelled);
    this.putEnd(node, '}');
  },

  jsxContainer(node) {
    const { expression } = node;
    this.put('{"expr":');
    if (expression.type === 'JSXEmptyExpression') this.put(`{"JSXEmptyExpr":{${this.only(expression)}}}`);
    else this.within('{"Expr":', 'expr', expression);
    this.putEnd(node, '}');
  },

  jsxChild(node) {
    const made = CHILDREN[node.type];
    return made ? made(this, node) : this.refuse(node, 'a child');
  },
};

module.exports = jsx;
