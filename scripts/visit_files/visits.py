"""src/..: how each type goes through its links and names."""

from files import MADE
from tree import ORDER, SUBJECT, camel

WIDTH = 100


def ghosts(home, names):
    """`ghost use home.{a, b};`, in as many lines as it takes."""
    lines, line = [], []
    for name in names:
        if line and len(f"ghost use {home}.{{{', '.join([*line, name])}}};") > WIDTH:
            lines.append(f"ghost use {home}.{{{', '.join(line)}}};")
            line = []
        line.append(name)
    return [*lines, f"ghost use {home}.{{{', '.join(line)}}};"]


def group(home, names):
    """`use home::{A, B};`, as `rt fmt` lays it out."""
    line = f"use {home}::{{{', '.join(names)}}};" if len(names) > 1 else f"use {home}::{names[0]};"
    if len(line) <= WIDTH:
        return line
    lines = [" " * 3]
    for name in names:
        if len(f"{lines[-1]} {name},") > WIDTH:
            lines.append(" " * 3)
        lines[-1] += f" {name},"
    return "\n".join([f"use {home}::{{", *lines, "};"])


def body(tree, one):
    """The body of `links_mut`."""
    held = [(field, written) for field, written in one.fields if tree.holds(written)]
    if not one.is_enum:
        last = len(held) - 1
        return [f"        self.{field}.links_mut(below, change){'?;' if at < last else ''}" for at, (field, _) in enumerate(held)]
    arms = [f"            {one.name}::{field}(node) => node.links_mut(below, change)," for field, _ in held]
    rest = [f"{one.name}::{field}{'(_)' if written else ''}" for field, written in one.fields if not tree.holds(written)]
    if rest:
        arms += alternatives(rest)
    return ["        match self {", *arms, "        }"]


def alternatives(rest):
    """The arm of those variants that hold no link and no name, as `rt fmt` lays it out."""
    line = f"            {' | '.join(rest)} => Ok(()),"
    if len(line) <= WIDTH:
        return [line]
    head = f"            {' | '.join(rest)} => {{"
    if len(head) <= WIDTH:
        return [head, "                Ok(())", "            }"]
    lines = [f"            {rest[0]}", *(f"            | {one}" for one in rest[1:])]
    return [*lines[:-1], f"{lines[-1]} => Ok(()),"]


def implementation(tree, one):
    of = f"{one.name}<N>" if one.is_generic else one.name
    mapped = f"map_{one.snake}" if one.is_generic else f"λ g f. map_{one.snake} g"
    return "\n".join([
        f"impl<N> Links<N> for {of} {{",
        f"    ghost mapped = {{ {mapped} }};",
        "",
        "    fn links_mut<C, B: Below<N, C>>(&mut self, below: &B, change: &mut C) -> Result<(), Stop> {",
        *body(tree, one),
        "    }",
        "}",
    ])  # fmt: skip


def area(tree, name):
    ones = [one for one in tree.types if one.area == name]
    home = f"Rattle.swc_ecma_codegen_visit.specs.Mapped{camel(name)}"
    types = sorted(one.name for one in ones)
    head = [f"//! Links and names of {SUBJECT[name]}. {MADE}", "", *ghosts(home, [f"map_{one.snake}" for one in ones]), ""]
    head += ["use crate::below::{Below, Links, Stop};", group("swc_ecma_codegen_tree", types)]
    return "\n".join(head) + "\n\n" + "\n\n".join(implementation(tree, one) for one in ones) + "\n"


def files(tree):
    return {f"src/{name}.rt": area(tree, name) for name in ORDER}
