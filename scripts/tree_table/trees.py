"""Trees as JSON: each field of each type comes with many values, and no two positions and no two texts are equal."""

import random
import re

FAR = 10 ** 6
EXPONENTS = [-1100, -3, 0, 7, 1100]


class Trees:
    def __init__(self, types, seed):
        self.types, self.random = types, random.Random(seed)
        self.count, self.met = 0, {}
        self.depths = dict.fromkeys(types, FAR)
        while self.lower_depths():
            pass
        self.shapes, self.fitting = {}, {}

    def lower_depths(self):
        """Whether some type needs fewer levels of JSON than was known."""
        changed = False
        for name, it in self.types.items():
            of = [0 if of == "" else 1 + self.depth(of) for _, of in it.parts]
            depth = 1 + max(map(self.depth, (of for _, of in it.parts))) if it.is_struct else min(of)
            if depth < self.depths[name]:
                self.depths[name], changed = depth, True
        return changed

    def depth(self, of):
        """How many levels of JSON a value of a type needs at the least."""
        if of in ("bool", "String", "BytePos") or of.startswith("Option<"):
            return 0
        if of in ("Span", "Decimal") or of.startswith("Vec<"):
            return 1
        return self.depths[of.removesuffix("Box")]

    def shape(self, of):
        """Whether a type is an option or a list, or else a node, what it holds, and how many levels that needs at the least."""
        if of not in self.shapes:
            held = re.fullmatch(r"(Option|Vec)<(.*)>", of)
            self.shapes[of] = (held[1], held[2], self.depth(held[2])) if held else ("", self.types[of.removesuffix("Box")], 0)
        return self.shapes[of]

    def variants(self, it, room):
        """The variants of a sum that fit, as keys, and of what each is."""
        if (it.name, room) not in self.fitting:
            depths = {name: 0 if of == "" else 1 + self.depth(of) for name, of in it.parts}
            most = room if room > 10 else min(depths.values()) + 1
            keys = [(it.name, name) for name, depth in depths.items() if depth <= most]
            self.fitting[it.name, room] = keys or [(it.name, min(depths, key=depths.get))], dict(it.parts)
        return self.fitting[it.name, room]

    def number(self):
        self.count += 1
        return self.count

    def pick(self, keys):
        """One of the keys, mostly one that was met the least."""
        met = self.met
        if self.random.random() < 0.7:
            least = min([met.get(it, 0) for it in keys])
            keys = [it for it in keys if met.get(it, 0) == least]
        picked = self.random.choice(keys)
        met[picked] = met.get(picked, 0) + 1
        return picked

    def value(self, of, room, owner):
        """A value of a type, at most so many levels deep where its least form isn't deeper."""
        if of == "bool":
            return self.random.random() < 0.5
        if of == "String":
            return f"s{self.number()}"
        if of == "Span":
            return {"lo": self.number(), "hi": self.number()}
        if of == "Decimal":
            return {"negative": self.random.random() < 0.5, "digits": str(self.number() * 10 + 1),
                    "exponent": self.random.choice(EXPONENTS)}
        kind, inner, depth = self.shape(of)
        if kind == "Option":
            keys = [(owner, "None")] + [(owner, "Some")] * (room > 9 and depth <= room)
            return self.value(inner, room, owner) if self.pick(keys)[1] == "Some" else None
        if kind == "Vec":
            many = room > 10 and depth < room - 1
            return [self.value(inner, room - 1, owner) for _ in range(self.random.choice([0, 1, 1, 2, 3]) * many)]
        return self.node(inner, room)

    def node(self, it, room):
        if it.is_struct:
            self.met[it.name] = self.met.get(it.name, 0) + 1
            return {name.rstrip("_"): self.value(of, room - 1, (it.name, name)) for name, of in it.parts}
        keys, parts = self.variants(it, room)
        _, name = self.pick(keys)
        of = parts[name]
        return name if of == "" else {name: self.value(of, room - 1, (it.name, name))}

    def program(self, is_module, items):
        """A program of so many items."""
        of = "ModuleItem" if is_module else "Stmt"
        body = [self.node(self.types[of], self.random.choice([14, 17, 20, 24, 28])) for _ in range(items)]
        span = {"lo": self.number(), "hi": self.number()}
        return {"Module" if is_module else "Script": {"span": span, "body": body, "shebang": None}}

    def unmet(self):
        """The types, variants and fields that are somewhere, of which no tree had one yet."""
        wanted = []
        for it in self.types.values():
            wanted += [it.name] if it.is_struct else [(it.name, name) for name, _ in it.parts]
            wanted += [((it.name, name), "Some") for name, of in it.parts if of.startswith("Option<")]
        return [it for it in wanted if it not in self.met and it not in ("Module", "Script")
                and it not in [("Program", "Module"), ("Program", "Script")]
                and it not in [(("Module", "shebang"), "Some"), (("Script", "shebang"), "Some")]]

    def shuffled(self, value):
        """The same tree with members in another order, and others among them."""
        if isinstance(value, list):
            return [self.shuffled(it) for it in value]
        if not isinstance(value, dict):
            return value
        items = [(name, self.shuffled(it)) for name, it in value.items()]
        if len(items) > 1:
            self.random.shuffle(items)
            if self.random.random() < 0.2:
                items.insert(self.random.randrange(len(items) + 1), ("zz", [{"span": None}, 1.5]))
        return dict(items)
