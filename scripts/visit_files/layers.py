"""proofs/Layers: the map by cases is the one that the kit derives. The kit's has names inside a sum that no file can know, so the whole proof of a
sort is one term of rules."""

import re

from files import MADE, folded, maps_used, uses
from rules import LETTERS, SAME, is_easy, kept
from tree import DECLARED, ORDER, SORTS, camel, snake, within


def proof(tree, written, used):
    """That the map of a field is the derived one: a function."""
    if is_easy(tree, written):
        return "(λ x. refl)"
    if not tree.has_links(written):
        term = kept(tree, written)
        used.add(term)
        return term
    former, inner = within(written)
    if former:
        return {
            "Option": f"(in_option _ refl (λ x. refl) {proof(tree, inner, used)})",
            "Vec": f"(in_vec {proof(tree, inner, used)})",
            "Box": f"(in_box _ (λ b x. refl) {proof(tree, inner, used)})",
        }[former]
    one = tree.of(inner)
    used.add(f"in_{one.snake}")
    if not one.is_enum:
        hard = [written for _, written in one.fields if not is_easy(tree, written)]
        shown = "".join(f" {LETTERS[at]}" for at in range(len(hard)))
        return f"(in_{one.snake} f _ (λ n{shown}. refl)" + "".join(f" {proof(tree, field, used)}" for field in hard) + ")"
    parts = ""
    for _, written in one.fields:
        parts += " refl" if written is None else " (λ n. refl)"
        parts += "" if is_easy(tree, written) else f" {proof(tree, written, used)}"
    return f"(in_{one.snake} f _{parts})"


def sort(tree, name, used):
    """That the map of one sort is the derived one."""
    term = proof(tree, f"{name}<N>", used)
    of = snake(name)
    return "\n".join([
        f"{of}_same : {{X : Type 0}} (f : X → X) (n : {name} X) → nodes.{name} (map_{of} {SAME} f n) ≡ map-AnyNode X X f (nodes.{name} n)",
        f"{of}_same f = under nodes.{name} {term}",
    ])  # fmt: skip


def rules_used(tree, text):
    """The lines that import the rules that a text names."""
    lines = []
    for area in ORDER:
        names = {f"{kind}_{one.snake}" for one in tree.types if one.area == area for kind in ("in", "kept")}
        found = {name for name in names if re.search(rf"\b{name}\b", text)}
        lines += uses(f"Rattle.swc_ecma_codegen_visit.proofs.Rules{camel(area)}", found)
    return lines


def files(tree):
    used = set()
    sorts = [sort(tree, name, used) for name in SORTS]
    whole = ["-- The map by cases, with names as they are, is the one that the kit derives."]
    whole.append("pub layer_same : {X : Type 0} (f : X → X) (n : AnyNode-F X) → map_layer (λ x. x) f n ≡ map-AnyNode X X f n")
    whole += [f"layer_same f (nodes.{name} n) = {snake(name)}_same f n" for name in SORTS]
    body = "\n\n".join([*sorts, "\n".join(whole)])
    basic = [name for name in ("under", "in_vec", "in_box", "in_option", "option_kept", "vec_kept") if f"{name} " in body]
    head = [
        f"-- The map by cases is the map that the kit derives for the one recursive type. {MADE}",
        "use Rattle.std.proofs.Common.{◌≡◌, refl}",
        f"use {DECLARED}.links.AnyNode.{{AnyNode-F, map-AnyNode}}",
        f"use {DECLARED}.links.AnyNode.TheOpen as nodes",
        *(f"use {DECLARED}.{tree.all[name].file}.{name}.{{{name}}}" for name in sorted(SORTS)),
        *maps_used(tree, body),
        "use Rattle.swc_ecma_codegen_visit.specs.Mapped.{map_layer}",
        *uses("Rattle.swc_ecma_codegen_visit.proofs.Rules", basic),
        *rules_used(tree, body),
    ]
    return {"proofs/Layers.antt": "\n".join(head) + "\n\n" + folded(body) + "\n"}
