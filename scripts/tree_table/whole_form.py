"""The whole form of a tree in JSON, by the types that the sources declare: which members are missing in it, and which are none of its own."""

import re

import schema

PLACES = {"Span": [("lo", "u32"), ("hi", "u32")], "Decimal": [("negative", "bool"), ("digits", "String"), ("exponent", "i32")]}


class WholeForm:
    def __init__(self):
        self.types = schema.all_types()

    def fields(self, of):
        """The members of a struct, each with its type; none where a type is no struct."""
        if of in PLACES:
            return PLACES[of]
        it = self.types.get(of)
        return [(schema.key(name), held) for name, held in it.parts] if it and it.is_struct else None

    def known(self, tree):
        """A program without the members that are none of its objects' own, and the first member that is missing, with the way to the
        object that lacks it. What is of another sort than its type says is left as it is."""
        self.missing = None
        return self.value("Program", tree, []), self.missing

    def value(self, of, value, path):
        held = re.fullmatch(r"(Option|Vec)<(.*)>", of)
        if held and held[1] == "Option":
            return None if value is None else self.value(held[2], value, path)
        if held:
            return [self.value(held[2], it, [*path, at]) for at, it in enumerate(value)] if isinstance(value, list) else value
        of = of if of in PLACES else of.removesuffix("Box")
        if not isinstance(value, dict):
            return value
        fields = self.fields(of)
        return self.variant(of, value, path) if fields is None else self.object(dict(fields), value, path)

    def variant(self, of, value, path):
        """What a variant holds, in an object of one member."""
        parts = dict(self.types[of].parts) if of in self.types else {}
        return {name: self.value(parts[name], held, [*path, name]) if parts.get(name) else held for name, held in value.items()}

    def object(self, fields, value, path):
        made = {name: self.value(fields[name], held, [*path, name]) for name, held in value.items() if name in fields}
        lacked = [name for name in fields if name not in value]
        if lacked and self.missing is None:
            self.missing = path, lacked[0]
        return made

    def known_nodes(self, flat):
        """The same of a flat form."""
        self.missing = None
        nodes = flat["nodes"]
        if isinstance(nodes, list):
            nodes = [self.sort(node, ["nodes", at]) for at, node in enumerate(nodes)]
        return {"nodes": nodes}, self.missing

    def sort(self, node, path):
        return {name: self.value(name, held, [*path, name]) for name, held in node.items()} if isinstance(node, dict) else node
