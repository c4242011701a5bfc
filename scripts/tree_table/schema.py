"""The types of the tree, as the sources of the crates say them."""

import glob
import re

CRATES = "crates/swc_ecma_codegen_"
AREAS = ["idents", "programs", "modules", "stmts", "decls", "classes", "pats", "exprs", "lits", "jsx", "ts_types",
         "ts_members", "ts_exprs", "ts_decls"]


class Type:
    """A struct, with the names and types of its fields, or an enum, with those of its variants (no type: it holds nothing)."""

    def __init__(self, name, is_struct, is_generic, parts):
        self.name, self.is_struct, self.is_generic, self.parts = name, is_struct, is_generic, parts


def key(field):
    """The name of a field in JSON: `type_` is `type`."""
    return field.rstrip("_")


def lines(body):
    """The lines of a declaration that declare something."""
    for line in body.split("\n"):
        line = line.strip()
        if line and not line.startswith(("//", "#")):
            yield line.rstrip(",")


def part(line, is_struct):
    """A name and its type, or what a box holds: `Number` of `Num(Box<Number>)`."""
    if is_struct:
        name, of = line.removeprefix("pub ").split(": ", 1)
    else:
        name, _, of = line.rstrip(")").partition("(")
    return name, re.sub(r"^Box<(.*)>$", r"\1", of.replace("<N>", ""))


def declared(file):
    """The types that a file declares."""
    with open(file, encoding="utf-8") as source:
        text = source.read()
    for kind, name, generic, body in re.findall(r"pub (struct|enum) (\w+)(<N = AnyNode>)? \{\n(.*?)\n\}", text, re.S):
        is_struct = kind == "struct"
        yield Type(name, is_struct, bool(generic), [part(line, is_struct) for line in lines(body)])


def all_types():
    """All types of the tree, and the operators."""
    files = [f"{CRATES}tree/src/{area}.rt" for area in AREAS] + [f"{CRATES}common/src/operators.rt"]
    return {it.name: it for file in files for it in declared(file)}


def sorts():
    """What links link to: `Expr` for `ExprBox`."""
    with open(f"{CRATES}tree/src/sorts.rt", encoding="utf-8") as source:
        return re.findall(r"pub type (\w+)Box<", source.read())


def implementors(crate, trait):
    """The types that have a trait of a crate."""
    found = set()
    for file in glob.glob(f"{CRATES}{crate}/src/*.rt"):
        with open(file, encoding="utf-8") as source:
            found.update(re.findall(rf"^impl.* {trait} for (\w+)", source.read(), re.M))
    return found
