"""Where each node stands, and whether it starts and ends with a character of a name, by rules over its JSON."""

PARTS = {
    "BindingIdent": ("id", "id"), "ClassDecl": ("class", "class"), "ClassExpr": ("class", "class"),
    "FnDecl": ("function", "function"), "FnExpr": ("function", "function"), "KeyValueProp": ("key", "value"),
    "KeyValuePatProp": ("key", "value"), "AssignProp": ("key", "value"), "MethodProp": ("key", "function"),
    "JSXMemberExpr": ("obj", "prop"), "JSXNamespacedName": ("ns", "name"), "SpreadElement": ("dot3_token", "expr"),
    "ExprOrSpread": ("spread", "expr"),
}
# What is a part's alone.
STARTS_AS = {
    "Cond": "test", "Call": "callee", "Member": "obj", "TaggedTpl": "tag", "OptChain": "base", "Assign": "left",
    "Bin": "left", "TsNonNull": "expr", "TsAs": "expr", "TsConstAssertion": "expr", "TsInstantiation": "expr",
    "TsSatisfies": "expr", "MemberExpr": "obj", "OptChainExpr": "base", "OptCall": "callee", "TsAsExpr": "expr",
    "TsSatisfiesExpr": "expr", "TsNonNullExpr": "expr", "TsInstantiationExpr": "expr",
}
WORDS = {"Ident", "Await", "Fn", "Class", "This", "Yield", "New", "MetaProp", "SuperProp", "JSXNamespacedName",
         "JSXMember", "Invalid"}
ALWAYS = {"BindingIdent", "Ident", "SuperPropExpr", "TsTypeAssertion", "Decl"}
NEVER = {"ArrayPat", "ObjectPat", "Invalid", "ParenExpr"}


class Places:
    def __init__(self, types):
        self.types = types

    def member(self, name, value, field):
        """A member, with the name of its type."""
        of = {key.rstrip("_"): of for key, of in self.types[name].parts}[field]
        return of.removeprefix("Option<").rstrip(">").removesuffix("Box"), value[field]

    def held(self, name, value):
        """An enum's variant and what it holds, with the name of that one's type."""
        [(variant, inner)] = value.items()
        return variant, dict(self.types[name].parts)[variant].removesuffix("Box"), inner

    def span(self, name, value):
        if name == "Span":
            return value
        if not self.types[name].is_struct:
            _, of, inner = self.held(name, value)
            return self.span(of, inner)
        if name not in PARTS:
            return value["span"]
        first, last = (self.member(name, value, field) for field in PARTS[name])
        # `a` of `f(a)` has no dots before it.
        begin = last if first[1] is None else first
        return {"lo": self.span(*begin)["lo"], "hi": self.span(*last)["hi"]}

    def starts(self, name, value):
        if name in ALWAYS or name in NEVER:
            return name in ALWAYS
        if name == "Expr":
            return self.expr_starts(value)
        if name == "ExprOrSpread" and value["spread"] is not None:
            return False
        if name in ("ExprOrSpread", "ExprStmt"):
            return self.starts(*self.member(name, value, "expr"))
        if self.types[name].is_struct:
            field = STARTS_AS["TsInstantiationExpr" if name == "TsInstantiation" else name]
            return self.starts(*self.member(name, value, field))
        variant, of, inner = self.held(name, value)
        if name == "PropName":
            return variant not in ("Str", "Computed")
        if name == "Callee" and variant in ("Super", "Import"):
            return True
        if name == "Stmt" and variant not in ("Expr", "Decl"):
            return variant not in ("Block", "Empty")
        if name == "Pat" and variant in ("Ident", "Invalid"):
            return True
        if name == "Pat" and variant != "Expr":
            return variant == "Assign" and self.starts(*self.member(of, inner, "left"))
        return self.starts(of, inner)

    def expr_starts(self, value):
        variant, of, inner = self.held("Expr", value)
        if variant in WORDS:
            return True
        if variant in STARTS_AS:
            return self.starts(*self.member(of, inner, STARTS_AS[variant]))
        if variant == "Lit":
            return self.held("Lit", inner)[0] in ("Bool", "Num", "Null", "BigInt")
        if variant == "Unary":
            return inner["op"] in ("TypeOf", "Void", "Delete")
        if variant == "Update":
            return not inner["prefix"] and self.starts("Expr", inner["arg"])
        if variant == "Seq":
            return bool(inner["exprs"]) and self.starts("Expr", inner["exprs"][0])
        if variant == "Arrow":
            return inner["is_async"] or len(inner["params"]) == 1 and self.starts("Pat", inner["params"][0])
        return False

    def ends(self, name, value):
        if name in ("VarDecl", "UsingDecl"):
            return not value["decls"] or self.declarator_ends(value["decls"][-1])
        if name == "MemberExpr":
            return self.ends("MemberProp", value["prop"])
        variant, of, inner = self.held(name, value)
        if name == "MemberProp":
            return variant != "Computed"
        if name == "ForHead":
            return self.ends(of, inner)
        if name == "Expr":
            return not (variant in ("Array", "Object", "Paren") or variant == "Lit" and "Str" in inner
                        or variant == "Member" and "Computed" in inner["prop"])
        if variant in ("Rest", "Assign"):
            return self.ends(*self.member(of, inner, "arg" if variant == "Rest" else "right"))
        return self.ends("Expr", inner) if variant == "Expr" else variant not in ("Array", "Object")

    def declarator_ends(self, declarator):
        init = declarator["init"]
        return self.ends("Pat", declarator["name"]) if init is None else self.ends("Expr", init)
