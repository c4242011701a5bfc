"""Files of crates/swc_ecma_codegen_visit: their lines, no longer than 140 characters, and their imports."""

import re

from tree import DECLARED, ORDER, argument, camel, within

WIDTH = 140
MADE = "Made by scripts/dev/make-visit-files."


def laid_out(line):
    """A definition that is one record, a field a line."""
    found = re.fullmatch(r"(\S.* = (?:λ i\. )?record n) \{ (.*) \}", line)
    if len(line) <= WIDTH or not found or "{" in found[2]:
        return line
    return f"{found[1]} {{\n" + "".join(f"  {field};\n" for field in found[2].split("; ")) + "}"


def words_of(line):
    """The words of a line, a record with all that stands in it as part of one."""
    words, depth = [], 0
    for word in line.split(" "):
        if depth > 0:
            words[-1] += f" {word}"
        else:
            words.append(word)
        depth += word.count("{") - word.count("}")
    return words


def broken(line):
    """A line in lines that are no longer than `WIDTH`, unless it is one record."""
    if len(line) <= WIDTH:
        return line
    lines = [""]
    for at, word in enumerate(words_of(line)):
        if at > 0 and len(lines[-1]) + 1 + len(word) > WIDTH:
            lines.append(f"    {word}")
        else:
            lines[-1] += f" {word}" if at > 0 else word
    return "\n".join(lines)


def folded(text):
    """A text with its long lines laid out as `rt fmt` leaves them."""
    lines = [laid_out(line) for line in text.split("\n")]
    return "\n".join(line if "\n" in line else broken(line) for line in lines)


def uses(home, names):
    """`use home.{a, b}`, in as many lines as it takes."""
    lines, line = [], []
    for name in sorted(names):
        if line and len(f"use {home}.{{{', '.join([*line, name])}}}") > WIDTH:
            lines.append(f"use {home}.{{{', '.join(line)}}}")
            line = []
        line.append(name)
    return lines + ([f"use {home}.{{{', '.join(line)}}}"] if line else [])


class Words:
    """What a file of specs/ or proofs/ imports of others."""

    def __init__(self, tree):
        self.tree, self.plain, self.variants, self.links = tree, set(), set(), set()

    def written(self, written):
        """A field's type as it is written there, with what it names imported."""
        former, inner = within(written)
        if former:
            one = argument(self.written(inner))
            return f"Option {one}" if former == "Option" else f"{former} {one} Global"
        if inner.endswith("<N>"):
            name = inner[:-3]
            (self.links if self.tree.is_link(inner) else self.plain).add(name)
            return f"{name} X"
        self.plain.add(inner)
        return inner

    def self_type(self, one):
        self.plain.add(one.name)
        return f"{one.name} X" if one.is_generic else one.name

    def lines(self, body):
        """The lines of imports, with the maps that the text `body` names."""
        lines = []
        for name in sorted(self.plain):
            home = self.tree.all.get(name)
            if home:
                lines.append(f"use {DECLARED}.{home.file}.{name}.{{{name}}}")
        for name in sorted(self.variants):
            home = self.tree.all[name]
            lines.append(f"use {DECLARED}.{home.file}.{name}.TheVariants as {home.variants}")
        if self.links:
            lines += uses("Rattle.swc_ecma_codegen_tree.specs.Links", self.links)
        return lines


def homes(tree):
    """In which file of specs/ each map stands."""
    found = {f"map_{one.snake}": f"Mapped{camel(one.area)}" for one in tree.types}
    return {**found, **{name: "Mapping" for name in ("map_link", "map_option", "map_box")}}


def maps_used(tree, body, but=()):
    """The lines that import the maps that a text names."""
    where, by = homes(tree), {}
    for name in set(re.findall(r"\bmap_\w+", body)) - set(but):
        if name in where:
            by.setdefault(where[name], set()).add(name)
    lines = []
    for area in ["Mapping", *(f"Mapped{camel(area)}" for area in ORDER)]:
        if area in by:
            lines += uses(f"Rattle.swc_ecma_codegen_visit.specs.{area}", by[area])
    return lines
