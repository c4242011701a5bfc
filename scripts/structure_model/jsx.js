'use strict';
// Elements and fragments of JSX: each is a primary expression.
const CHILDREN = {
  JSXExprContainer: (walk, part, context) => walk.jsxContainer(part, context),
  JSXSpreadChild: (walk, part, context) => ({ ...part, expr: walk.expr(part.expr, 'Expression', context) }),
  JSXElement: (walk, part, context) => walk.jsxElement(part, context),
  JSXFragment: (walk, part, context) => walk.jsxFragment(part, context),
};

const jsx = {
  jsxElement(part, context) {
    const attrs = part.opening.attrs.map((each) => this.jsxAttribute(each, context));
    return { ...part, opening: { ...part.opening, attrs }, children: this.jsxChildren(part.children, context) };
  },

  jsxFragment(part, context) {
    return { ...part, children: this.jsxChildren(part.children, context) };
  },

  jsxChildren(children, context) {
    return children.map((child) => this.jsxChild(child, context));
  },

  // A child, or the value of an attribute.
  jsxChild(child, context) {
    const [[kind, part]] = Object.entries(child), made = CHILDREN[kind];
    return made ? { [kind]: made(this, part, context) } : child;
  },

  jsxAttribute(attribute, context) {
    if (attribute.SpreadElement) return { SpreadElement: this.argument(attribute.SpreadElement, context) };
    const { value } = attribute.JSXAttr;
    if (value && value.JSXExprContainer && !value.JSXExprContainer.expr.Expr) this.fault('grammar', 'an attribute of no value');
    return { JSXAttr: { ...attribute.JSXAttr, value: value && this.jsxChild(value, context) } };
  },

  // (Babel and TypeScript take a sequence in braces, too)
  jsxContainer(part, context) {
    return part.expr.Expr ? { ...part, expr: { Expr: this.expr(part.expr.Expr, 'Expression', context) } } : part;
  },
};

module.exports = jsx;
