"""The runs of `ecmagen` and of `ecmafix` that the rows of tests/swc_ecma_codegen_cases ask for."""

import collections
import re

import rows
import settings
import table

# A run: its row, its words, its input, its status, and what it writes to standard output (`None` for some text, whichever) and to
# standard error (a text, or a pattern of it).
Run = collections.namedtuple("Run", "row words input status text lines")

PROGRAM = "•"
STATEMENTS = '{"Script":{"span":~,"body":[•],"shebang":null}}'
EXPRESSION = '{"Script":{"span":~,"body":[{"Expr":{"span":~,"expr":•}}],"shebang":null}}'
LITERAL = '{"Lit":•}'
MEMBER = '{"Member":{"span":~,"obj":{"Lit":•},"prop":{"Ident":{"span":~,"sym":"x"}}}}'
BAD_TREE = (1, "", "bad tree\n")
NOT_WELL_FORMED = (1, "", "not well-formed\n")
NOT_A_DERIVATION = (1, "", "not a derivation\n")
UNPRINTED = (1, "", "refused: unsupported node\n")
SOME_TEXT = (0, None, "")
# an expression that begins as a statement may not
UNMENDED = re.compile(r"class_extends•{•}$")
# the status where a word is none of the options
WRONG_WORDS = 2
# what may stand behind an option
VALUES = {"--target": ", ".join(settings.VERSIONS), "--max-line": f"the numbers 0 to {settings.LONGEST}"}
# what swc prints, and no grammar derives
NO_DERIVATIONS = ("export*as a,{", "export using ")
# what frames what steps leave, by the word of a row
FRAMES = {"script": STATEMENTS, "program": PROGRAM, "": EXPRESSION}
# by the letters of rows `replaced`
ANSWERS = {"b": BAD_TREE, "n": NOT_WELL_FORMED, "p": SOME_TEXT}


def framed(frame, short):
    """JSON of a short form, in what stands around it."""
    return frame.replace("•", short).replace("~", table.NOWHERE).replace("@", table.A).encode()


def prints(json, words, text, is_formed=True):
    """The runs that print a text: of a tree that isn't well-formed only with `--any`."""
    if is_formed:
        return [(words, json, (0, text, ""))]
    return [(words, json, NOT_WELL_FORMED), (words + ["--any"], json, (0, text, ""))]


def columns():
    """The words of the columns of rows `literal`, as the head of their file has them."""
    lines = rows.read(rows.path_of("literal_table")).split("\n")
    return [line[2:].split() for line in lines if line.startswith("##   ")]


def of_literal(literal, texts, of_member):
    """A literal, and its member `x`, with the words of each column. An empty text is that of the column before."""
    for frame, given in ((LITERAL, texts), (MEMBER, of_member)):
        json, text = framed(EXPRESSION, frame.replace("•", literal)), ""
        for words, found in zip(columns(), given.split("¦"), strict=True):
            text = found or text
            yield from prints(json, words, text + (";" if "--minify" in words else ";\n"))


def of_steps(rows_of, word, rest):
    """The runs of a tree in steps."""
    sort, _, plain = word.rpartition("_") if word.startswith(("script_", "program_")) else ("", "", word)
    if plain == "script":
        sort, plain = "script", "tree"
    if plain not in ("tree", "malformed", "node", "prints"):
        return []
    words, made_of, text = (rest[0].split(), rest[1], rest[2]) if plain == "prints" else ([], rest[0], rest[1])
    return prints(of_sort(rows_of, sort, made_of), words, text, plain != "malformed")


def of_sort(rows_of, sort, made_of):
    """What steps leave, as a program: the statements of a script, a program, or an expression."""
    parts = rows_of.made(made_of, 0)
    return framed(FRAMES[sort], ",".join(parts) if sort == "script" else parts[-1])


def of_json(word, rest):
    """The runs of a program in JSON, or of an expression."""
    json = framed(EXPRESSION if word.endswith("expr") else PROGRAM, rest[0])
    if word in ("no_program", "no_expr"):
        return [([], json, BAD_TREE)]
    if word in ("unprinted_program", "unprinted_expr"):
        return [([], json, NOT_WELL_FORMED), (["--any"], json, UNPRINTED)]
    if word == "malformed_program":
        return prints(json, [], rest[1], False) + prints(json, ["--minify"], rest[2], False)
    return prints(json, [], rest[1]) if word in ("program", "expr") else []


def of_bytes(word, rest):
    """The runs of what is no tree, or is another one."""
    if word == "cuts":
        json = framed(PROGRAM, rest[0])
        return [([], json[:end], BAD_TREE) for end in range(len(json))]
    if word == "replaced":
        json, other = framed(PROGRAM, rest[0]), rest[1].encode()[:1]
        letters = enumerate(rest[2])
        return [([], json[:at] + other + json[at + 1 :], ANSWERS[letter]) for at, letter in letters]
    return [([], bytes.fromhex(rest[0]), (1, "", "cannot read\n"))]


def of_row(rows_of, word, rest):
    if word == "run":
        return [(rest[0].split(), framed(PROGRAM, rest[1]), (int(rest[2]), rest[3], rest[4]))]
    if word == "literal":
        return of_literal(rest[0], rest[2], rest[3])
    if word in ("cuts", "replaced", "no_text"):
        return of_bytes(word, rest)
    if word.endswith(("program", "expr")):
        return of_json(word, rest)
    return of_steps(rows_of, word, rest)


def mends(json, answers):
    """The runs of `ecmafix` by what is said of a tree: whether each node is covered, whether it is curable, and whether it lacks no parentheses."""
    if answers[:2] == "10":
        return [([], json, NOT_A_DERIVATION), (["--any"], json, SOME_TEXT)]
    return [([], json, SOME_TEXT)]


def wrong_words(words):
    """What `ecmafix` says of the first of these words that is wrong. Which option is near to it is left open."""
    given = iter(words)
    for word in given:
        if word not in VALUES:
            if settings.request_of([word]) is None:
                return re.compile(f"ecmafix: no option {re.escape(word)}(: is --[a-z-]+ meant\\?)? \\(--help lists all\\)\n")
            continue
        value = next(given, None)
        if value is None:
            return f"ecmafix: a word is missing behind {word} of {VALUES[word]}\n"
        if settings.request_of([word, value]) is None:
            return f"ecmafix: {word} {value}: {value} is none of {VALUES[word]}\n"
    raise ValueError(f"{words}: none of these words is wrong")


def by_ecmafix(words, json, answer):
    """A run of `ecmafix` by one of `ecmagen`, of a tree that lacks no parentheses but in the value of an accessor."""
    status, text, lines = answer
    if status == WRONG_WORDS:
        return words, json, (status, text, wrong_words(words))
    if text.startswith(NO_DERIVATIONS):
        return words, json, NOT_A_DERIVATION
    text = re.sub(r"(?<=accessor a)( ?= ?)(b, ?c)", r"\1(\2)", text)
    return words, json, (status, text, lines.replace("ecmagen", "ecmafix"))


def of_row_mended(rows_of, word, rest):
    """The runs of `ecmafix` that a row asks for."""
    if word in ("run", "cuts", "no_text"):
        return [by_ecmafix(*run) for run in of_row(rows_of, word, rest)]
    sort, _, plain = word.rpartition("_")
    if (word, rest[0]) == ("mended", "fewest"):
        return [(["--fewest"], of_sort(rows_of, sort, rest[1]), (0, rest[2] + "\n", ""))]
    if word == "told_program":
        return mends(framed(PROGRAM, rest[0]), rest[1])
    if plain not in ("mended", "structure") or rest[0] != ("program" if sort else "script") or UNMENDED.search(rest[1]):
        return []
    json = of_sort(rows_of, sort, rest[1])
    return [([], json, (0, rest[2] + "\n", ""))] if plain == "mended" else mends(json, rest[2])


def runs(of=of_row):
    """Each run that the table asks for."""
    rows_of = table.Table()
    for row, (word, *rest) in rows_of.rows:
        for words, json, answer in of(rows_of, word, rest):
            yield Run(row, words, json, *answer)
