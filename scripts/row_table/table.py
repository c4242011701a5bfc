"""The rows of the table of tests/swc_ecma_codegen_cases: trees, and the texts that they ask for."""

import collections
import itertools
import json
import os
import re

TABLE = os.path.join(os.path.dirname(os.path.abspath(__file__)), "../../tests/swc_ecma_codegen_cases/stdin")
NOWHERE = '{"lo":0,"hi":0}'
A = '{"Ident":{"span":{"lo":0,"hi":0},"sym":"a","optional":false}}'
NAMES = ["a", "in_", "$", "\u00e9"]
LETTERS = ["a", ",", " ", "\U0001f600"]
MAPPERS = {"same": "same", "apart": "different", "even": "parity"}
# A text that a row asks for: the row, the words of a run, the JSON of the tree, the text, the lines on standard error, and
# the tokens, or nothing where the row tells none; with comments, these and what of them is left, by their positions.
Case = collections.namedtuple("Case", "row words tree text lines tokens comments left", defaults=[None, None])


def decoded(field):
    """The text that a field of a row stands for."""

    def group(found):
        times, cross, part = found[1].partition("×")
        if cross:
            return int(times) * part
        return chr(int(times, 16)) if times else ""

    return re.sub("‹([^›]*)›", group, field)


def tree(short):
    return json.loads(short.replace("~", NOWHERE).replace("@", A))


def in_places(short):
    """A tree where each span is another, as the program that goes through the table has them."""
    ends = itertools.count(1, 3)

    def span(_):
        lo = next(ends)
        return '{"lo":%d,"hi":%d}' % (lo, lo + 1)

    return tree(re.sub("~", span, short))


def in_place(short, places):
    """A step's JSON whose first spans are these."""
    places = iter(places)

    def span(found):
        place = next(places, None)
        return '{"lo":%s,"hi":%s}' % tuple(place.split("-")) if place else found[0]

    return re.sub("~", span, short)


def comments_of(field):
    """Comments by the positions that they stand before or after: those of `before 3 /* a */¦after 5~7-11 // b`."""
    found = {"leading": {}, "trailing": {}}
    for part in field.split("¦") if field else []:
        side, place, written = part.split(" ", 2)
        pos, _, span = place.partition("~")
        lo, hi = map(int, (span or "0-0").split("-"))
        kind, text = ("Line", written[2:]) if written.startswith("//") else ("Block", written[2:-2])
        comment = {"kind": kind, "text": text, "span": {"lo": lo, "hi": hi}}
        found["leading" if side == "before" else "trailing"].setdefault(pos, []).append(comment)
    return found


def snippets():
    """The texts of up to four letters, the shorter ones first."""
    return ["".join(text) for length in range(5) for text in itertools.product(LETTERS, repeat=length)]


def script_of(body, tree=tree):
    return tree('{"Script":{"span":~,"body":[%s],"shebang":null}}' % body)


def script(expr, tree=tree):
    return script_of('{"Expr":{"span":~,"expr":%s}}' % expr, tree)


def filled(text, operands):
    return "".join(part + operand for part, operand in zip(text.split("•"), operands + [""]))


def written(tokens, words, comma=False):
    """The tokens of a text that is printed with these words: without blanks some don't stand, nor some semicolons.

    The commas at the ends of lists stand with `comma`, where the source text has them.
    """
    is_minified = "--minify" in words
    # (a writer that holds semicolons back loses those before a closing brace and before others)
    left = {"p:}", "p:;", "e:;"} if is_minified and "--bare" not in words else set()
    if is_minified and "--omit-last-semi" in words:
        left.add(None)
    # (`^` is no token: no line may end there)
    absent = "^" + "PC" * is_minified + "cC" * (not comma)
    found = ["p" + token[1:] if token[0] in "PcC" else token for token in tokens.split() if token[0] not in absent]
    return [token for token, after in zip(found, found[1:] + [None]) if token != "e:;" or after not in left]


class Table:
    def __init__(self):
        with open(TABLE, encoding="utf-8") as table:
            lines = [line for line in table.read().split("\n") if line and not line.startswith("#")]
        self.rows = [(line, [decoded(field) for field in line.split("\t")]) for line in lines]
        self.steps, self.sorts = {}, {"operator": [], "expression": [], "step": []}
        for _, fields in self.rows:
            if fields[0] in self.sorts:
                self.steps.setdefault(fields[1], fields[2:])
                self.sorts[fields[0]].append(fields[1])

    def operands(self, word):
        return self.steps[word][0].count("•")

    def made(self, words, part):
        """What steps leave: their JSON (0) or their tokens (1)."""
        left = []
        for word in words.split():
            name, *places = re.split("~(?=[0-9]+-[0-9])", word)
            text = self.steps[name][part] if part else in_place(self.steps[name][part], places)
            from_ = len(left) - text.count("•")
            left[from_:] = [filled(text, left[from_:])]
        return left

    def nesting(self, outer, inner, place):
        """The words of a step whose operand at `place` is another."""
        words, turn = [], 0
        for at in range(self.operands(outer)):
            for _ in range(self.operands(inner) if at == place else 1):
                words.append(NAMES[turn % 4])
                turn += 1
            words += [inner] * (at == place)
        return " ".join([*words, outer])

    def case(self, row, words, made_of, text, is_script=False):
        parts, tokens = self.made(made_of, 0), " ".join(self.made(made_of, 1))
        program = script_of(",".join(parts)) if is_script else script(parts[-1])
        return Case(row, words, program, text, "", written(tokens if is_script else tokens + " e:;", words))

    def both(self, row, made_of, pretty, minified, is_script=False):
        return [self.case(row, [], made_of, pretty, is_script), self.case(row, ["--minify", "--bare"], made_of, minified, is_script)]

    def over(self, row, words, made_of, texts, comma=False):
        """The two texts over a source text, where each node has a place of its own."""
        parts, tokens = self.made(made_of, 0), self.made(made_of, 1)
        is_script = row.startswith("script")
        program = script_of(",".join(parts), in_places) if is_script else script(parts[-1], in_places)
        tokens = " ".join(tokens) if is_script else tokens[-1] + " e:;"
        both = [(words, texts[0]), ([*words, "--minify", "--bare"], texts[1])]
        return [Case(row, words, program, text, "", written(tokens, words, comma)) for words, text in both]

    def program_of(self, word, made_of):
        """The program that the steps of a row make, and its tokens."""
        parts, tokens = self.made(made_of, 0), " ".join(self.made(made_of, 1))
        if word.startswith("program_"):
            return tree(parts[-1]), tokens
        return (script_of(",".join(parts)), tokens) if word.startswith("script_") else (script(parts[-1]), tokens + " e:;")

    def of_steps(self, row, words, word, made_of, text):
        """The text of what steps make, with these words."""
        program, tokens = self.program_of(word, made_of)
        return Case(row, words, program, text, "", written(tokens, words))

    def of_program(self, row, words, made_of, text):
        return self.of_steps(row, words, "program_", made_of, text)

    def commented(self, row, word, made_of, comments, left, texts):
        """The texts of a tree with comments, pretty, minified, and minified without semicolons that aren't needed."""
        program, tokens = self.program_of(word, made_of)
        manners = ([], ["--minify", "--bare"], ["--minify", "--omit-last-semi"])
        both = (comments_of(comments), comments_of(left))
        return [Case(row, words, program, text, "", written(tokens, words), *both) for words, text in zip(manners, texts) if text != "…"]

    def of_row(self, row, fields):
        word, rest = fields[0], fields[1:]
        if word.endswith("commented"):
            return self.commented(row, word, *rest[:3], rest[3:])
        if word.endswith("commented_places"):
            program, _ = self.program_of(word, rest[0])
            lines = "".join("%s %s %s\n" % tuple(place.split(":")) for place in rest[3].split())
            return [Case(row, ["--positions"], program, rest[2], lines, None, comments_of(rest[1]))]
        if word.endswith("lined"):
            # (templates, and what has comments, aren't read back)
            return [] if rest[1] or "`" in rest[0] else [self.of_steps(row, ["--minify", "--bare", "--max-line", rest[2]], word, rest[0], rest[3])]
        if word in ("tree", "malformed", "script", "script_malformed"):
            return self.both(row, *rest, word.startswith("script"))
        if word.endswith("bare_for"):
            return [self.of_steps(row, ["--minify", "--bare", "--target", rest[0].lower()], word, *rest[1:])]
        if word == "node":
            return [self.case(row, [], *rest)]
        if word in ("prints", "script_prints"):
            return [self.case(row, rest[0].split(), *rest[1:], word == "script_prints")]
        if word == "program_tree":
            return [self.of_program(row, words, rest[0], text) for words, text in (([], rest[1]), (["--minify", "--bare"], rest[2]))]
        if word == "program_prints":
            return [self.of_program(row, rest[0].split(), *rest[1:])]
        if word in ("program", "expr"):
            return [Case(row, [], tree(rest[0]) if word == "program" else script(rest[0]), rest[1], "", None)]
        if word == "malformed_program":
            return [Case(row, words, tree(rest[0]), text, "", None) for words, text in (([], rest[1]), (["--minify"], rest[2]))]
        if word == "run" and rest[2] == "0":
            return [Case(row, rest[0].split(), tree(rest[1]), rest[3], rest[4], None)]
        if word in ("over", "script_over"):
            return self.over(row, ["--mapper", MAPPERS[rest[0]]], rest[1], rest[2:])
        if word in ("commas", "script_commas"):
            marked = [(["--mapper", "same", "--snippet", text], mark == "1") for text, mark in zip(snippets(), rest[5])]
            return [case for words, comma in marked for case in self.over(row, words, rest[0], rest[3:5] if comma else rest[1:3], comma)]
        if word in ("nestings", "placed"):
            inners = self.sorts["operator" if word == "nestings" else "expression"]
            texts = zip(inners, rest[2].split("¦"), rest[3].split("¦"))
            nested = [(self.nesting(rest[0], inner, int(rest[1])), *both) for inner, *both in texts]
            return [case for made, pretty, minified in nested for case in self.both(row, made, pretty + ";\n", minified + ";")]
        return []

    def cases(self):
        """Each text that the table asks for."""
        return [case for row, fields in self.rows for case in self.of_row(row, fields)]
