"""Trees at random that are mostly well-formed: with names, literals and parts of templates of the language, and none at a place."""

import copy
import json

from trees import Trees

NOWHERE = {"lo": 0, "hi": 0}
NAMES = ["a", "b", "foo", "of", "async", "get", "let", "x1", "$", "_", "a\u00f3b", "\u540d", "type", "as", "static", "\\u0061b"]
TEXTS = ["", "a", "use strict", "it's", '"q"', "'\"", "a\nb\t", "\0", "\x001", "\u2028", "\u00e9", "\u540d", "\U0001f600", "\\", "\\n"]
TEXTS += ["</script>", "<!-- -->", "\x7f", "\ufeff", "${", "`", "\\ud83d"]
PARTS = ["", "a", "x y", "\\n", "\\x41", "\\u{1F600}", "\\`", "$", "'", "\n", "\u540d", "{", "}", "\\0", "\u00e9"]
NUMBERS = [("0", 0, "0"), ("1", 0, "1"), ("5", -1, ".5"), ("15", -1, "1.5"), ("1", 3, "1000"), ("1", 3, "1e3"), ("1", 0, "1.")]
NUMBERS += [("255", 0, "0xFF"), ("89", 0, "089"), ("3", 0, "0b11"), ("1", 21, "1e21"), ("1", 3, "1_000"), ("123456", 4, None)]
BIG_INTEGERS = [("5", "Decimal", "5n"), ("ff", "Hex", "0xffn"), ("17", "Octal", "0o17n"), ("101", "Binary", None), ("0", "Decimal", None)]
BODIES = ["a", "[/]", "\\/", ".*", "^$", "(?:x)", "=", "\u00e9"]
# what stands nowhere
ABSENT = {
    "Expr": {"Invalid", "JSXMember", "JSXNamespacedName", "JSXEmpty", "PrivateName"}, "Pat": {"Invalid"},
    "SimpleAssignTarget": {"Invalid"}, "AssignTargetPat": {"Invalid"}, "Lit": {"JSXText"}, "ExportSpecifier": {"Default", "Namespace"},
    "ImportSpecifier": {"Default", "Namespace"},
}  # fmt: skip
NEVER_EMPTY = {
    ("VarDecl", "decls"), ("UsingDecl", "decls"), ("SeqExpr", "exprs"), ("TsUnionType", "types"), ("TsIntersectionType", "types"),
    ("TsTypeParamDecl", "params"), ("TsTypeParamInstantiation", "params"),
}  # fmt: skip


class Plausible(Trees):
    """Makes no variants of these names besides."""

    def __init__(self, types, seed, variants=()):
        types = copy.deepcopy(types)
        for name, it in types.items():
            if not it.is_struct:
                absent = ABSENT.get(name, set()).union(variants if name in ("Expr", "Decl", "ModuleDecl") else ())
                it.parts = [part for part in it.parts if part[0] not in absent]
        super().__init__(types, seed)

    def value(self, of, room, owner):
        if of == "Span":
            return NOWHERE
        made = super().value(of, room, owner)
        if made == [] and owner in NEVER_EMPTY:
            return [super().value(of.removeprefix("Vec<").removesuffix(">"), room, owner)]
        return made

    def node(self, it, room):
        made = super().node(it, room)
        mended = getattr(self, f"of_{it.name}", None)
        return mended(made) if mended else made

    def of_Ident(self, made):
        return {**made, "sym": self.random.choice(NAMES), "optional": False}

    def of_IdentName(self, made):
        return {**made, "sym": self.random.choice([*NAMES, "if", "class"])}

    def of_PrivateName(self, made):
        return {**made, "name": self.random.choice(NAMES)}

    def of_Str(self, made):
        value = self.random.choice(TEXTS)
        # (a surrogate that is written in a text is one in its raw as well)
        raw = json.dumps(value).replace("\\\\ud83d", "\\ud83d").replace("\\u0000", "\\x00")
        return {**made, "value": value, "raw": self.random.choice([None, raw])}

    def of_Number(self, made):
        if isinstance(made["value"], str):
            return {**made, "raw": None}
        digits, exponent, raw = self.random.choice(NUMBERS)
        raw = self.random.choice([None, raw])
        negative = raw is None and self.random.random() < 0.2
        return {**made, "value": {"Finite": {"negative": negative, "digits": digits, "exponent": exponent}}, "raw": raw}

    def of_BigInt(self, made):
        digits, radix, raw = self.random.choice(BIG_INTEGERS)
        negative = raw is None and self.random.random() < 0.3
        return {**made, "negative": negative, "radix": radix, "digits": digits, "raw": raw}

    def of_Regex(self, made):
        return {**made, "exp": self.random.choice(BODIES), "flags": self.random.choice(["", "g", "iu"])}

    def of_TplElement(self, made):
        return {**made, "raw": self.random.choice(PARTS)}

    def parts(self, count):
        return [self.of_TplElement({"span": NOWHERE}) for _ in range(count)]

    def of_Tpl(self, made):
        return {**made, "quasis": self.parts(len(made["exprs"]) + 1)}

    def of_TsTplLitType(self, made):
        return {**made, "quasis": self.parts(len(made["types"]) + 1)}

    def of_JSXText(self, made):
        text = self.random.choice(["x", " a b ", "x\n  y"])
        return {**made, "value": text, "raw": text}

    def children(self, made):
        """Children of which no two texts are neighbours."""
        found = []
        for child in made["children"]:
            if "JSXText" not in child or not found or "JSXText" not in found[-1]:
                found.append(child)
        return found

    def of_JSXElement(self, made):
        opening, children = made["opening"], self.children(made)
        closed = {"span": NOWHERE, "name": opening["name"]}
        alone = opening["self_closing"]
        return {**made, "children": [] if alone else children, "closing": None if alone else closed}

    def of_JSXFragment(self, made):
        return {**made, "children": self.children(made)}

    def of_JSXAttrValue(self, made):
        if "Lit" not in made:
            return made
        return {"Lit": {"Str": {"span": NOWHERE, "value": self.random.choice(["", "a", "x'y", 'x"y', "\u00e9"]), "raw": None}}}

    def attributed(self, made):
        """What imports or exports, with attributes of its source or without."""
        pair = {"KeyValue": {"key": {"Ident": {"span": NOWHERE, "sym": "type"}}, "value": {"Lit": {"Str": self.of_Str({"span": NOWHERE})}}}}
        has = made["src"] is not None and self.random.random() < 0.3
        return {**made, "with": {"span": NOWHERE, "props": [{"Prop": pair}]} if has else None}

    of_ImportDecl = of_NamedExport = of_ExportAll = attributed

    def of_Class(self, made):
        return {**made, "super_type_params": made["super_type_params"] if made["super_class"] else None}

    def of_Function(self, made):
        return {**made, "decorators": []}

    def of_ClassMethod(self, made):
        plain = {**made["function"], "is_async": False, "is_generator": False}
        return {**made, "function": made["function"] if made["kind"] == "Method" else plain}

    of_PrivateMethod = of_ClassMethod

    def indefinite(self, made):
        return {**made, "definite": made["definite"] and made["type_ann"] is not None}

    of_ClassProp = of_PrivateProp = of_AutoAccessor = indefinite

    def of_VarDeclarator(self, made):
        return {**made, "definite": made["definite"] and bool(made["name"].get("Ident", {}).get("type_ann"))}

    def of_TsNamespaceDecl(self, made):
        return {**made, "declare": False}

    def of_TsMappedType(self, made):
        return {**made, "type_param": {**made["type_param"], "is_in": False, "is_out": False, "is_const": False}}
