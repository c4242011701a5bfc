"""What a check says of the functions that wrong bodies change."""

import re

FUNCTION = re.compile(r"(?m)^fn \w+::(\S+): (.*)$")
ENDED = re.compile(r"(?m)^only=\d+ proved=\d+$")
GOALS = re.compile(r"did not prove ((?:`[^`]*`(?:, and |, | and )?)+)")
# a place in a file, and what is said there
PLACE = re.compile(r"(?m)^(?:note: )?(?:\./)?((?:src|specs|proofs)/\S+?):(\d+):\d+: (.*)$")
ERROR = re.compile(r"(?m)^(?:\./)?(\S+?):(\d+):\d+: error.*$")
# what is said of a proof that names what an edit took away, and of what cites such a proof
LOST = re.compile(r"has no field|is not in scope|has no `|was not admitted")


def states_of(said):
    """What a check says of each function, by its name below the crate."""
    return dict(FUNCTION.findall(said))


def is_stopped(said):
    """Whether a check tells of no function and came to no end: its texts can't be compiled, say."""
    return not FUNCTION.search(said) and not ENDED.search(said)


def errors(said):
    """The places of errors: of each its file and its line."""
    return [(file, int(line)) for file, line in ERROR.findall(said)]


def first_error(said):
    found = ERROR.search(said)
    return (found[0] if found else said.strip().split("\n")[-1])[:200]


def states_in(said, names):
    """What a check says of these functions and of the closures in them. A name may be that of a type or a module, for all functions in it."""
    heads = [head for name in names for head in (f"{name}::", "::".join([*name.split("::")[:-1], "fn", name.split("::")[-1], ""]))]
    return {name: state for name, state in states_of(said).items() if f"{name}::".startswith(tuple(heads))}


def open_goals(said, names):
    """The goals of these functions that stay open, and those whose written answers prove something else, by the functions."""
    found = {}
    for name, state in states_in(said, names).items():
        goals = [goal for part in GOALS.findall(state) for goal in re.findall(r"`([^`]*)`", part)]
        folder = f"proofs/{name.replace('::', '/')}/"
        told = [it[3] for it in PLACE.finditer(said) if it[1].startswith(folder) and not LOST.search(it[3])]
        answers = [answer for text in told for answer in re.findall(r"^error: `([^`]*)`", text)]
        if goals or answers:
            found[name] = [*dict.fromkeys(goals), *dict.fromkeys(f"the answer of {answer}" for answer in answers if answer not in goals)]
    return found


def of(names, said, is_alone):
    """Whether an edit of these functions is refused, and what to say of it. `None` where that has to be seen by itself: no goal of its own is open,
    and something else in the round is refused."""
    goals = open_goals(said, names)
    if goals:
        return True, "refused at " + ", ".join(f"{name} ({', '.join(of_name)})" for name, of_name in goals.items())
    states = states_in(said, names)
    if states and all(state == "proved" for state in states.values()):
        return False, f"PROVED: {', '.join(names)}"
    if not is_alone:
        return None
    lost = next((it[0] for it in PLACE.finditer(said) if LOST.search(it[3])), "")
    if lost:
        return False, f"BAD EDIT: refused only because a proof names what it took away: {lost[:200]}"
    state = next((f"{name}: {state}" for name, state in states.items() if state != "proved"), first_error(said))
    return False, f"BAD EDIT: no goal of {', '.join(names)} stays open: {state[:200]}"
