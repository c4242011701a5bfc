"""specs/Mapped..: each type over what its links hold and what its names are as something else."""

from files import MADE, Words, folded, maps_used
from tree import ORDER, SUBJECT, camel


def definition(tree, one, words):
    """The map of one type."""
    of = words.self_type(one)
    takes = "{X : Type 0} → (Ident → Ident) → (X → X)" if one.is_generic else "(Ident → Ident)"
    arguments = "g f" if one.is_generic else "g"
    name = f"map_{one.snake}"
    lines = [f"abbrev pub {name} : {takes} → {of} → {of}"]
    if one.is_enum:
        words.variants.add(one.name)
        for variant, written in one.fields:
            there = f"{one.variants}.{variant}"
            if written is None:
                lines.append(f"{name} {arguments} {there} = {there}")
            else:
                held = tree.map(written, "g", "f")
                lines.append(f"{name} {arguments} ({there} n) = {there} " + (f"({held} n)" if held else "n"))
    else:
        changed = [f"{field} = {tree.map(written, 'g', 'f')} n.{field}" for field, written in one.fields if tree.holds(written)]
        lines.append(f"{name} {arguments} n = record n {{ {'; '.join(changed)} }}")
    return "\n".join(lines)


def area(tree, name):
    """The file of one area."""
    words = Words(tree)
    words.plain.add("Ident")
    ones = [one for one in tree.types if one.area == name]
    body = "\n\n".join(definition(tree, one, words) for one in ones)
    head = [f"-- Maps of {SUBJECT[name]}: of each type, over names and what links hold as something else. {MADE}"]
    if "vec_mapped" in body:
        head.append("use Rattle.std.specs.formers.vec.Vec.{mapped as vec_mapped}")
    head += words.lines(body)
    return "\n".join([*head, *maps_used(tree, body, {f"map_{one.snake}" for one in ones})]) + "\n\n" + folded(body) + "\n"


def files(tree):
    return {f"specs/Mapped{camel(name)}.antt": area(tree, name) for name in ORDER}
