"""The files of rows of tests/swc_ecma_codegen_cases, by subject, and the table that is made of them.

The head of a file is its lines that begin with `##`: what its rows are about, and then a line for each of their words, with the
names of its columns as a row has its fields. A name that ends with ` ..` stands for any number of fields. The head isn't in the table;
lines that begin with one `#` are.
"""

import os

CRATE = os.path.join(os.path.dirname(os.path.abspath(__file__)), "../../tests/swc_ecma_codegen_cases")
ROWS = os.path.join(CRATE, "rows")
# in the order of the table; only that of the steps means something: rows `nestings` have a text for each, in this order
SUBJECTS = [
    "steps", "operators", "literals", "expressions", "lists", "functions", "statements", "well_formed", "nestings",
    "json", "runs", "literal_table", "classes", "modules", "members", "comments",
    "tokens", "names_and_numbers", "string_values", "template_values", "regular_expressions",
    "spellings", "string_spellings", "script_ends", "template_spellings", "list_formats", "writers", "gaps",
    "jsx", "source_texts", "malformed", "bad_json", "comments_everywhere",
    "ts_types", "ts_decls", "ts_files", "ts_exprs", "ts_classes", "reserved", "lines", "structures", "mended", "added", "flat",
]  # fmt: skip


def path_of(subject):
    return os.path.join(ROWS, f"{subject}.rows")


def read(path):
    with open(path, encoding="utf-8", newline="") as file:
        return file.read()


def write(path, text):
    with open(path, "w", encoding="utf-8", newline="") as file:
        file.write(text)


def is_row(line):
    return line != "" and not line.startswith("#")


def columns_of(lines):
    """The names of the columns, by the words of the rows."""
    named = [line[3:].split("\t") for line in lines if line.startswith("## ") and "\t" in line]
    return {word: columns for word, *columns in named}


def fits(fields, columns):
    if columns[0].endswith(" .."):
        return len(fields) >= len(columns)
    return len(fields) == len(columns)


def faults_of(subject, lines):
    """The rows of a file that its head doesn't fit."""
    columns = columns_of(lines)
    for at, line in enumerate(lines, 1):
        word, *fields = line.split("\t")
        if is_row(line) and word not in columns:
            yield f"{subject}.rows:{at}: the head names no columns of `{word}`"
        elif is_row(line) and not fits(fields, columns[word]):
            yield f"{subject}.rows:{at}: {len(fields)} fields, where `{word}` has the columns {', '.join(columns[word])}"


def made():
    """The files `stdin` and `stdout` that the rows make, and what is wrong with the files."""
    files = {subject: read(path_of(subject)).split("\n") for subject in SUBJECTS}
    faults = [fault for subject, lines in files.items() for fault in faults_of(subject, lines)]
    faults += [f"{name}: no subject" for name in sorted(os.listdir(ROWS)) if name.removesuffix(".rows") not in files]
    bodies = ["\n".join(line for line in lines if not line.startswith("##")).strip("\n") for lines in files.values()]
    table = "\n\n".join(body for body in bodies if body) + "\n"
    count = sum(map(is_row, table.split("\n")))
    return {"stdin": table, "stdout": f"{count} rows, 0 failed\n"}, faults
