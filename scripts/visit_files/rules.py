"""proofs/Rules..: where the map of a type, with names as they are, is another map `D` of that type. A rule's premises say how `D` computes where what
is held in place is shown; each is `refl` where the rule is used."""

import re

from files import MADE, Words, folded, maps_used, uses
from tree import ORDER, SUBJECT, camel, within

LETTERS = "abcdefgh"
SAME = "(λ x. x)"


def is_easy(tree, written):
    """Whether the map of a field computes to what the kit derives, with no rule."""
    if written is None or not tree.holds(written):
        return True
    former, inner = within(written)
    if former:
        return former != "Option" and tree.has_links(inner) and is_easy(tree, inner)
    if inner == "Ident" or tree.is_link(inner):
        return True
    one = tree.of(inner)
    return not one.is_enum and all(is_easy(tree, field) for _, field in one.fields)


def mapped(tree, written):
    """The map of a field with names as they are; `None` where that is the field itself."""
    if written is None or not tree.holds(written) or not tree.has_links(written):
        return None
    return tree.map(written, SAME, "f")


def struct_rule(tree, one, words):
    of, name = words.self_type(one), one.snake
    hard = [(field, written) for field, written in one.fields if not is_easy(tree, written)]
    letter = {field: LETTERS[at] for at, (field, _) in enumerate(hard)}
    types = [(letter[field], words.written(written)) for field, written in hard]
    to, through, given = [], [], []
    for field, written in one.fields:
        if field in letter:
            to.append(f"{field} = to_{letter[field]} {letter[field]}")
            through.append(f"{field} = at_{letter[field]} n.{field} i")
            given.append(f"{field} = {letter[field]}")
        elif mapped(tree, written):
            to.append(f"{field} = {mapped(tree, written)} n.{field}")
            through.append(to[-1])
    implicit = "".join(f" {{to_{a} : {of_a} → {of_a}}}" for a, of_a in types)
    shown = "".join(f" ({a} : {of_a})" for a, of_a in types)
    premises = "".join(
        f" → ((x : {of_a}) → {tree.map(written, SAME, 'f')} x ≡ to_{a} x)" for (a, of_a), (_, written) in zip(types, hard)
    )
    computes = f"((n : {of}){shown} → record n {{ {'; '.join(to)} }} ≡ D (record n {{ {'; '.join(given)} }}))"
    return "\n".join([
        f"pub in_{name} : {{X : Type 0}} (f : X → X) (D : {of} → {of}){implicit} → {computes}{premises}"
        + f" → (n : {of}) → map_{name} {SAME} f n ≡ D n",
        f"in_{name} f D is{''.join(f' at_{a}' for a, _ in types)} n = (λ i. record n {{ {'; '.join(through)} }}) ∙ is n"
        + "".join(f" n.{field}" for field, _ in hard),
    ])  # fmt: skip


def enum_rule(tree, one, words):
    of, name, there = words.self_type(one), one.snake, one.variants
    words.variants.add(one.name)
    implicit, premises, names, clauses = "", "", "", []
    for variant, written in one.fields:
        names += f" is_{variant}"
        if written is None:
            premises += f" → {there}.{variant} ≡ D {there}.{variant}"
            clauses.append((f"{there}.{variant}", f"is_{variant}"))
            continue
        type_of = words.written(written)
        if is_easy(tree, written):
            inner = f"({mapped(tree, written)} n)" if mapped(tree, written) else "n"
            premises += f" → ((n : {type_of}) → {there}.{variant} {inner} ≡ D ({there}.{variant} n))"
            clauses.append((f"({there}.{variant} n)", f"is_{variant} n"))
        else:
            implicit += f" {{to_{variant} : {type_of} → {type_of}}}"
            premises += f" → ((n : {type_of}) → {there}.{variant} (to_{variant} n) ≡ D ({there}.{variant} n))"
            premises += f" → ((n : {type_of}) → {tree.map(written, SAME, 'f')} n ≡ to_{variant} n)"
            names += f" at_{variant}"
            clauses.append((f"({there}.{variant} n)", f"ap {there}.{variant} (at_{variant} n) ∙ is_{variant} n"))
    head = f"pub in_{name} : {{X : Type 0}} (f : X → X) (D : {of} → {of}){implicit}{premises} → (n : {of}) → map_{name} {SAME} f n ≡ D n"
    return "\n".join([head, *(f"in_{name} f D{names} {pattern} = {body}" for pattern, body in clauses)])


def kept(tree, written):
    """That a field without links stays, with names as they are: a function."""
    if is_easy(tree, written):
        return "(λ x. refl)"
    former, inner = within(written)
    if former:
        return f"({former.lower()}_kept {kept(tree, inner)})"
    return f"kept_{tree.of(inner).snake}"


def by_variants(one, lemma, proof_of):
    """The cases of a lemma on an enum: by what proves it of what a variant holds, or `refl` where nothing has to."""
    there = one.variants
    for variant, written in one.fields:
        proof = written and proof_of(written)
        shown = f"({there}.{variant} n)" if written else f"{there}.{variant}"
        yield f"{lemma} {shown} = " + (f"ap {there}.{variant} ({proof} n)" if proof else "refl")


def kept_rule(tree, one, words):
    """That a type without links stays, with names as they are."""
    of, name = words.self_type(one), one.snake
    head = f"pub kept_{name} : (n : {of}) → map_{name} {SAME} n ≡ n"
    if not one.is_enum:
        hard = [f"{field} = {kept(tree, written)} n.{field} i" for field, written in one.fields if not is_easy(tree, written)]
        return f"{head}\nkept_{name} n = λ i. record n {{ {'; '.join(hard)} }}"
    words.variants.add(one.name)
    cases = by_variants(one, f"kept_{name}", lambda written: None if is_easy(tree, written) else kept(tree, written))
    return "\n".join([head, *cases])


def is_hard(tree, one):
    return one.is_enum or not all(is_easy(tree, written) for _, written in one.fields)


def rule(tree, one, words):
    if not one.is_generic:
        return kept_rule(tree, one, words)
    return enum_rule(tree, one, words) if one.is_enum else struct_rule(tree, one, words)


def kept_used(tree, body, own):
    """The lines that import rules of types without links from other areas."""
    by = {}
    for one in tree.types:
        if not one.is_generic and re.search(rf"\bkept_{one.snake}\b", body) and one.area != own:
            by.setdefault(one.area, set()).add(f"kept_{one.snake}")
    return [line for area in ORDER if area in by for line in uses(f"Rattle.swc_ecma_codegen_visit.proofs.Rules{camel(area)}", by[area])]


def area(tree, name):
    words = Words(tree)
    ones = [one for one in tree.types if one.area == name and is_hard(tree, one)]
    body = "\n\n".join(rule(tree, one, words) for one in ones)
    head = [f"-- Where the map of {SUBJECT[name]} is another map of the same type, with names as they are. {MADE}"]
    head.append(f"use Rattle.std.proofs.Common.{{{', '.join(common(body))}}}")
    for needed, line in OF_STD:
        if re.search(rf"\b{needed}\b", body):
            head.append(line)
    basic = [word for word in ("option_kept", "vec_kept") if word in body]
    head += words.lines(body) + maps_used(tree, body)
    head += uses("Rattle.swc_ecma_codegen_visit.proofs.Rules", basic) + kept_used(tree, body, name)
    return "\n".join(head) + "\n\n" + folded(body) + "\n"


OF_STD = [
    ("Box", "use Rattle.std.specs.Prelude.{Box}"),
    ("Global", "use Rattle.std.specs.declared.alloc.Global.{Global}"),
    ("Vec", "use Rattle.std.specs.declared.vec.Vec.{Vec}"),
    ("vec_mapped", "use Rattle.std.specs.formers.vec.Vec.{mapped as vec_mapped}"),
]


def common(body):
    """The words of `Rattle.std.proofs.Common` that a text names."""
    words = [("◌≡◌", "≡"), ("refl", r"\brefl\b"), ("ap", r"\bap\b"), ("◌∙◌", "∙"), ("Option", r"\bOption\b")]
    return [word for word, mark in words if re.search(mark, body)]


def files(tree):
    areas = {one.area for one in tree.types if is_hard(tree, one)}
    return {f"proofs/Rules{camel(name)}.antt": area(tree, name) for name in ORDER if name in areas}
