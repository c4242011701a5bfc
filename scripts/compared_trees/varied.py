"""What the tool that makes trees never makes: other specifiers than those among braces, and decorators of functions."""

NOWHERE = {"lo": 0, "hi": 0}


def name(text):
    return {"span": NOWHERE, "sym": text, "optional": False}


def imported(node, rng):
    """An import in a form of the language: a default name, and then a namespace or what stands among braces, or one of these."""
    first = [{"Default": {"span": NOWHERE, "local": name("b")}}] if rng.random() < 0.4 else []
    is_star = rng.random() < 0.3
    return {**node, "specifiers": first + ([{"Namespace": {"span": NOWHERE, "local": name("c")}}] if is_star else node["specifiers"])}


def exported(node, rng):
    """An export with a source, of a namespace too: `export * as d, { a } from "e"`."""
    if node["src"] is None or rng.random() < 0.6:
        return node
    return {**node, "specifiers": [{"Namespace": {"span": NOWHERE, "name": {"Ident": name("d")}}}, *node["specifiers"]]}


def decorated(node, rng):
    """What has a function, a method too, with a decorator or two where there were none."""
    count = rng.choice([0, 0, 0, 0, 0, 1, 2])
    decorators = [{"span": NOWHERE, "expr": {"Ident": name(text)}} for text in ("a", "b")[:count]]
    return {**node, "function": {**node["function"], "decorators": node["function"]["decorators"] or decorators}}


VARIATIONS = {"Import": imported, "ExportNamed": exported, "Method": decorated, "PrivateMethod": decorated, "Fn": decorated}


def varied(node, rng):
    """The same tree with some of that."""
    if isinstance(node, list):
        return [varied(item, rng) for item in node]
    if not isinstance(node, dict):
        return node
    made = {member: varied(value, rng) for member, value in node.items()}
    for variant, variation in VARIATIONS.items():
        # (a callee may be an import too)
        if len(made) == 1 and variant in made and ("function" in made[variant] or "src" in made[variant]):
            made[variant] = variation(made[variant], rng)
    return made
