"""Edits to wrong bodies: what each changes of a crate, and which of them can be tried in one copy of it."""

import collections
import difflib
import glob
import os
import re

from impls import function_at

# An edit: its path, the lines that it changes of each module (`hunks`), the places that it changes, and whether it changes bodies alone.
Edit = collections.namedtuple("Edit", "path hunks places of_bodies")
# Lines of a module, from `first` up to but without `end`, counted from 0, and what stands in their place.
Hunk = collections.namedtuple("Hunk", "first end lines")
# A place in a module, as `a::b`: the function that it is in, the type of the `impl`, and the words of its trait's own types.
Place = collections.namedtuple("Place", "module function on words")

DECLARED = re.compile(r"(?m)^(?:pub(?:\([^)]*\))? )?(?:unsafe )?(?:struct|enum|union|type|trait) (\w+)")


def read(path, folder, read_edit):
    """An edit of the crate in this folder, or why it can't be applied. `read_edit` is the kit's: the texts that an edit makes. A definition that
    an edit changes beside a body is at no place."""
    texts, why = read_edit(path, folder)
    if why:
        return None, why
    before = {module: text_of(f"{folder}/{module}") for module in texts}
    hunks = {module: hunks_of(before[module], text) for module, text in texts.items()}
    module, old, now, places, of_bodies = "", None, dict(before), [], True
    for line in text_of(path).split("\n"):
        word, _, rest = line.partition(": ")
        if word == "file":
            module = rest.strip()
        elif word == "old":
            old = rest
        elif line.startswith("new:") and old is not None:
            new = line[len("new:") :].removeprefix(" ")
            place = Place(path_of(module), *function_at(now[module], now[module].find(old))) if module.startswith("src/") else None
            places += [place] if place and place not in places else []
            of_bodies = of_bodies and bool(place and place.function) and said_of_contracts(old) == said_of_contracts(new) == []
            now[module] = now[module].replace(old, new)
            old = None
    return (Edit(path, hunks, places, of_bodies), None) if places else (None, "it changes nothing in src/, so no function must be refused for it")


def said_of_contracts(text):
    """The words of a text that begin a part of a contract."""
    return re.findall(r"\b(?:ensures|requires|ghost)\b", text)


def text_of(path):
    with open(path, encoding="utf-8", newline="") as file:
        return file.read()


def path_of(module):
    """The path below the crate of what a file holds: that of `src/a/b.rt` is `a::b`, that of the crate's root is empty."""
    path = module.removeprefix("src/").removesuffix(".rt").removesuffix("/mod").replace("/", "::")
    return "" if path in ("lib", "main") else path


def joined(*names):
    return "::".join(name for name in names if name)


def declared_in(folder):
    """Where the crate in this folder declares types and traits: by the name of each, the modules that declare one of that name."""
    found = {}
    for path in sorted(glob.glob(f"{folder}/src/**/*.rt", recursive=True)):
        for name in DECLARED.findall(text_of(path)):
            found.setdefault(name, []).append(path_of(os.path.relpath(path, folder)))
    return found


def names_of(place, known, declared):
    """The names that a function may have, by a place in it; behind them the type or the module, which stands for all functions in it. `known` are
    names of functions, and `declared` is where the crate's types are declared. What an `impl` of a trait holds is named by the module that it stands
    in. Other methods are named by the module of their type, wherever their `impl` stands."""
    types = list(dict.fromkeys((place.on or "") + "".join(place.words[:count]) for count in (0, 1, len(place.words))))
    modules = list(dict.fromkeys([*declared.get(place.on, []), place.module]))
    names = [joined(module, on, place.function) for on in types for module in modules]
    if not place.function:
        return [*names, place.module]
    near = [name for name in known if place.on and name.startswith(f"{place.module}::") and name.endswith(f"::{place.function}")]
    found = [name for name in names if name in known] or (near if len(near) == 1 else [])
    return [*(found or names), place.module]


def hunks_of(before, after):
    """The lines in which two texts differ."""
    before, after = before.split("\n"), after.split("\n")
    codes = difflib.SequenceMatcher(None, before, after, autojunk=False).get_opcodes()
    return [Hunk(first, end, tuple(after[start:stop])) for kind, first, end, start, stop in codes if kind != "equal"]


def texts_of(edits, folder):
    """The texts that edits make together, by their modules."""
    texts = {}
    for module in {module for edit in edits for module in edit.hunks}:
        lines = text_of(f"{folder}/{module}").split("\n")
        for hunk in sorted((hunk for edit in edits for hunk in edit.hunks.get(module, [])), reverse=True):
            lines[hunk.first : hunk.end] = hunk.lines
        texts[module] = "\n".join(lines)
    return texts


def changer(edits, module, line):
    """The edit that changed a line of the text that edits make of a module together, counted from 1, if one did."""
    hunks = sorted((hunk, at) for at, edit in enumerate(edits) for hunk in edit.hunks.get(module, []))
    added = 0
    for hunk, at in hunks:
        if 0 <= line - 1 - added - hunk.first < len(hunk.lines):
            return edits[at]
        added += len(hunk.lines) - (hunk.end - hunk.first)
    return None


def are_apart(one, other, named):
    """Whether two edits change the bodies of different functions, and no lines that are the same or touch. `named` gives the name of what is at a
    place. An edit stands alone that changes a contract, which other functions see, or what is in no function that a check knows."""
    names = [{named[place] for place in edit.places} for edit in (one, other)]
    if any(not edit.of_bodies or any(named[place] == place.module for place in edit.places) for edit in (one, other)):
        return False
    touch = (a.first <= b.end and b.first <= a.end for module, hunks in one.hunks.items() for a in hunks for b in other.hunks.get(module, []))
    return names[0].isdisjoint(names[1]) and not any(touch)


def rounds_of(edits, named):
    """Rounds of edits: those of a round are apart from one another."""
    rounds = []
    for edit in edits:
        fitting = (round for round in rounds if all(are_apart(edit, other, named) for other in round))
        found = next(fitting, None)
        if found is None:
            rounds.append([edit])
        else:
            found.append(edit)
    return rounds
