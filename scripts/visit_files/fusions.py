"""proofs/Fused..: one map of a type behind another is one map."""

import re

from files import MADE, Words, folded, maps_used, uses
from rules import OF_STD, by_variants, common
from tree import ORDER, SUBJECT, argument, camel, within

FIRST, SECOND, BOTH = ("h", "k"), ("g", "f"), ("(λ x. g (h x))", "(λ x. f (k x))")


def is_easy(tree, written):
    """Whether one map behind another computes to one map."""
    if written is None or not tree.holds(written):
        return True
    former, inner = within(written)
    if former:
        return former == "Box" and is_easy(tree, inner)
    if inner == "Ident" or tree.is_link(inner):
        return True
    one = tree.of(inner)
    return not one.is_enum and all(is_easy(tree, field) for _, field in one.fields)


def proof(tree, written):
    """That one map of a field behind another is one map: a function."""
    if is_easy(tree, written):
        return "(λ x. refl)"
    former, inner = within(written)
    if former:
        three = " ".join(argument(tree.map(inner, *way)) for way in (SECOND, FIRST, BOTH))
        return f"({former.lower()}_fused {three} {proof(tree, inner)})"
    one = tree.of(inner)
    return f"(fused_{one.snake} g h f k)" if one.is_generic else f"(fused_{one.snake} g h)"


def lemma(tree, one, words):
    """That one map of a type behind another is one map."""
    of, name = words.self_type(one), one.snake
    words.plain.add("Ident")
    if one.is_generic:
        head = f"pub fused_{name} : {{X : Type 0}} (g h : Ident → Ident) (f k : X → X) (n : {of})"
        head += f" → map_{name} g f (map_{name} h k n) ≡ map_{name} {' '.join(BOTH)} n"
        self = f"fused_{name} g h f k"
    else:
        head = f"pub fused_{name} : (g h : Ident → Ident) (n : {of}) → map_{name} g (map_{name} h n) ≡ map_{name} {BOTH[0]} n"
        self = f"fused_{name} g h"
    if not one.is_enum:
        changed = []
        for field, written in one.fields:
            if not tree.holds(written):
                continue
            if written == "Ident":
                changed.append(f"{field} = g (h n.{field})")
            elif is_easy(tree, written):
                changed.append(f"{field} = {tree.map(written, *BOTH)} n.{field}")
            else:
                changed.append(f"{field} = {proof(tree, written)} n.{field} i")
        return f"{head}\n{self} n = λ i. record n {{ {'; '.join(changed)} }}"
    words.variants.add(one.name)
    cases = by_variants(one, self, lambda written: None if is_easy(tree, written) else proof(tree, written))
    return "\n".join([head, *cases])


def is_hard(tree, one):
    return one.is_enum or not all(is_easy(tree, written) for _, written in one.fields)


def fused_used(tree, body, own):
    """The lines that import the lemmas that a text names of other areas."""
    lines = []
    for area in ORDER:
        names = {f"fused_{one.snake}" for one in tree.types if one.area == area}
        found = {name for name in names if re.search(rf"\b{name}\b", body)}
        if area != own:
            lines += uses(f"Rattle.swc_ecma_codegen_visit.proofs.Fused{camel(area)}", found)
    return lines


def area(tree, name):
    words = Words(tree)
    ones = [one for one in tree.types if one.area == name and is_hard(tree, one)]
    body = "\n\n".join(lemma(tree, one, words) for one in ones)
    head = [f"-- One map of {SUBJECT[name]} behind another is one map. {MADE}", f"use Rattle.std.proofs.Common.{{{', '.join(common(body))}}}"]
    head += [line for needed, line in OF_STD if needed in body and needed == "vec_mapped"]
    basic = [word for word in ("option_fused", "vec_fused", "box_fused") if word in body]
    head += words.lines(body) + maps_used(tree, body)
    head += uses("Rattle.swc_ecma_codegen_visit.proofs.Fused", basic) + fused_used(tree, body, name)
    return "\n".join(head) + "\n\n" + folded(body) + "\n"


def files(tree):
    areas = {one.area for one in tree.types if is_hard(tree, one)}
    return {f"proofs/Fused{camel(name)}.antt": area(tree, name) for name in ORDER if name in areas}
