"""The types of the tree that hold links or names, as crates/swc_ecma_codegen_tree/src declares them."""

import glob
import os
import re

TOP = os.path.dirname(os.path.dirname(os.path.dirname(os.path.abspath(__file__))))
TREE = f"{TOP}/crates/swc_ecma_codegen_tree/src"
VISIT = f"{TOP}/crates/swc_ecma_codegen_visit"
DECLARED = "Rattle.swc_ecma_codegen_tree.specs.declared"
# The types that stand in `AnyNode`, in its order.
SORTS = ["Expr", "Stmt", "MemberExpr", "ExprPart", "StmtPart", "JSXPart", "TsPart"]
# Files of one area are made of these of the tree, since types of the one hold types of the other; and these types stand in another area than
# their file says, so that areas stand in an order.
AREAS = {"ts_exprs": "exprs", "ts_members": "ts_types", "programs": "modules"}
PLACED = {"JSXMemberExpr": "exprs", "TsModuleBlock": "modules", "TsNamespaceDecl": "modules", "TsNamespaceBody": "modules"}
ORDER = ["idents", "exprs", "jsx", "pats", "ts_types", "ts_decls", "decls", "classes", "stmts", "modules", "parts"]
SUBJECT = {
    "idents": "bound names",
    "exprs": "expressions",
    "jsx": "JSX",
    "pats": "patterns",
    "ts_types": "types of TypeScript",
    "ts_decls": "declarations of TypeScript",
    "decls": "declarations and functions",
    "classes": "classes and their members",
    "stmts": "statements",
    "modules": "modules, scripts and namespaces",
    "parts": "what stands in the sums of sorts",
}


def snake(name):
    """`TsTypeAnn` as `ts_type_ann`."""
    return re.sub(r"(?<!^)([A-Z])", r"_\1", name.replace("JSX", "Jsx")).lower()


def camel(area):
    """`ts_types` as `TsTypes`."""
    return "".join(word.capitalize() for word in area.split("_"))


class Type:
    """A struct or an enum: its name, the file of the tree that declares it, and its fields (or variants), each with its type or `None`."""

    def __init__(self, name, file, kind, is_generic, fields):
        self.name, self.file, self.is_enum, self.is_generic, self.fields = name, file, kind == "enum", is_generic, fields
        self.snake = snake(name)
        self.area = PLACED.get(name) or AREAS.get(file, file)

    @property
    def variants(self):
        """The name under which its variants are imported."""
        return f"{self.snake}s"


def declared():
    """All types of the tree, by name."""
    types = {}
    for path in sorted(glob.glob(f"{TREE}/*.rt")):
        with open(path, encoding="utf-8") as source:
            text = re.sub(r"//[^\n]*", "", source.read())
        for kind, name, generic, body in re.findall(r"pub (struct|enum) (\w+)(<N = AnyNode>)? \{(.*?)\n\}", text, re.S):
            struct, enum = r"pub (\w+): ([^\n]+),\n", r"(?m)^\s*(\w+)(?:\((.*)\))?,\s*$"
            fields = re.findall(struct if kind == "struct" else enum, f"{body}\n")
            types[name] = Type(name, os.path.basename(path)[:-3], kind, bool(generic), [(field, of or None) for field, of in fields])
    return types


def within(written):
    """`("Option", "Ident")` of `Option<Ident>`, and of any other type `(None, ..)`."""
    found = re.fullmatch(r"(Option|Vec|Box)<(.*)>", written)
    return (found[1], found[2]) if found else (None, written)


class Tree:
    """The types that hold links or names, each behind those that it holds in place."""

    def __init__(self):
        self.all = declared()
        self.types, self.seen = [], set()
        for name in self.all:
            self.visit(name)
        self.types.sort(key=lambda one: ORDER.index(one.area))

    def visit(self, name):
        if name in self.seen:
            return
        self.seen.add(name)
        for _, written in self.all[name].fields:
            held = self.named(written)
            if held:
                self.visit(held)
        if name != "Ident" and any(self.holds(written) for _, written in self.all[name].fields):
            self.types.append(self.all[name])

    def named(self, written):
        """The type of the tree that a field holds in place, behind any option, list or box; `None` where it is a link or no type of the tree."""
        if written is None:
            return None
        former, inner = within(written)
        if former:
            return self.named(inner)
        name = inner.replace("<N>", "")
        return name if name in self.all else None

    def is_link(self, written):
        return written.endswith("<N>") and written[:-3] not in self.all

    def holds(self, written):
        """Whether a field holds a link or a name."""
        if written is None:
            return False
        former, inner = within(written)
        if former:
            return self.holds(inner)
        if inner == "Ident" or inner.endswith("<N>"):
            return True
        return inner in self.all and any(self.holds(field) for _, field in self.all[inner].fields)

    def has_links(self, written):
        return "<N>" in written

    def of(self, written):
        """The type of the tree that a field is, in place."""
        return self.all[written.replace("<N>", "")]

    def map(self, written, idents, nodes):
        """The map of a field, by these functions of names and of what links hold; `None` where it holds neither."""
        if written is None or not self.holds(written):
            return None
        former, inner = within(written)
        if former:
            one = self.map(inner, idents, nodes)
            return {"Option": "map_option", "Vec": "vec_mapped", "Box": "map_box"}[former] + " " + argument(one)
        if inner == "Ident":
            return idents
        if self.is_link(inner):
            return f"map_link {nodes}"
        name = f"map_{snake(self.of(inner).name)}"
        return f"{name} {idents} {nodes}" if self.has_links(inner) else f"{name} {idents}"


def argument(term):
    """A term as an argument: in parentheses where it has more than one word."""
    return f"({term})" if " " in term and not closed(term) else term


def closed(term):
    """Whether a term stands in one pair of parentheses."""
    depth = 0
    for at, letter in enumerate(term):
        depth += (letter == "(") - (letter == ")")
        if depth == 0:
            return at == len(term) - 1 and term[0] == "("
    return False
