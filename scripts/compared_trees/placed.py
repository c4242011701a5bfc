"""Trees that are given places, and comments at these."""

BLOCKS = [" c%d ", "c%d", "*\n * c%d\n ", "#__PURE__ %d", "! c%d\u2028 é", "*", "/", ""]
LINES = [" c%d", "c%d ", " é%d", "/ <reference %d/>", "*", "/", ""]


def is_span(value):
    return isinstance(value, dict) and set(value) == {"lo", "hi"}


def are_same(ours, theirs, is_blank):
    """Whether two lists of positions are the same, or those of the reference stand before a blank and these behind it.

    A position ends with its column; `is_blank` says whether one stands before a blank. The reference that has the gap guard built in
    records the name of an attribute before the blank that keeps it apart from another: `<a b c/>`.
    """
    if len(ours) != len(theirs):
        return False
    for one, other in zip(ours, theirs):
        is_moved = one[:-1] == other[:-1] and one[-1] == other[-1] + 1 and is_blank(other)
        if one != other and not is_moved:
            return False
    return True


class Places:
    """Gives each node of a tree a place, as if its members were its source text from left to right.

    A node often begins where its first part does and ends where its last part does, and sometimes where nothing else does; one
    in twenty stands nowhere.
    """

    def __init__(self, rng):
        self.rng, self.at, self.ends = rng, 1, []

    def move(self, least):
        self.at += self.rng.choice([least, least, 1, 1, 2, 3])

    def token(self):
        lo = self.at
        self.move(1)
        self.ends += [("leading", lo), ("trailing", self.at)]
        return {"lo": lo, "hi": self.at}

    def placed(self, value):
        if isinstance(value, list):
            return [self.placed(item) for item in value]
        if not isinstance(value, dict):
            return value
        if "span" not in value:
            return {name: self.token() if is_span(part) else self.placed(part) for name, part in value.items()}
        self.move(0)
        lo = self.at
        made = {}
        for name, part in value.items():
            made[name] = part if name == "span" else self.token() if is_span(part) else self.placed(part)
        self.move(1 if self.at == lo else 0)
        if self.rng.random() < 0.05:
            return made | {"span": {"lo": 0, "hi": 0}}
        self.ends += [("leading", lo), ("trailing", self.at)]
        return made | {"span": {"lo": lo, "hi": self.at}}

    def comments(self, most):
        """Some comments, mostly before places where nodes begin and after places where they end, or a little before these."""
        found = {"leading": {}, "trailing": {}}
        for number in range(self.rng.randint(1, most)):
            side, pos = self.rng.choice(self.ends or [("leading", 1)])
            pos = max(0, pos - self.rng.choice([0, 0, 0, 0, 0, 0, 1, 1, 2]))
            side = side if self.rng.random() < 0.8 else self.rng.choice(["leading", "trailing"])
            kind = self.rng.choice(["Line", "Block"])
            text = self.rng.choice(LINES if kind == "Line" else BLOCKS)
            lo = self.rng.choice([0, 1, 2, pos, self.rng.randint(1, self.at + 9)])
            span = {"lo": lo, "hi": lo + self.rng.randint(0, 9)}
            comment = {"kind": kind, "text": text % number if "%" in text else text, "span": span}
            found[side].setdefault(str(pos), []).append(comment)
            if self.rng.random() < 0.2:
                again = {**comment, "kind": "Block", "text": " again%d " % number}
                found[self.rng.choice(["leading", "trailing"])].setdefault(str(pos), []).append(again)
        return found
