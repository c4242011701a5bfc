"""How functions are called by what reads their sources."""

import re

FUNCTION = re.compile(r"^( *)(?:pub(?:\([^)]*\))? )?(?:final )?(?:const )?(?:unsafe )?fn (\w+)")
TRAIT = re.compile(r"^(?:pub(?:\([^)]*\))? )?(?:unsafe )?trait (\w+)")


def implemented(line):
    """The type of an `impl`, with the trait's name behind it where there is one, as LLVM's code names both; else `None`."""
    if not re.match(r"(unsafe )?impl\b", line):
        return None
    line, depth, parameters = re.sub(r"^(unsafe )?impl\s*", "", line), 0, ""
    if line.startswith("<"):
        for at, c in enumerate(line):
            depth += (c == "<") - (c == ">" and line[at - 1] != "-")
            if depth == 0:
                line, parameters = line[at + 1 :], line[1:at]
                break
    of, is_trait, on = line.partition(" for ")
    on = (on if is_trait else of).strip()
    reference = re.match(r"&('\w+ )?(mut )?", on)
    if reference:
        return ("RefMut" if reference[2] else "Ref") + (last(of) if is_trait else "")
    # (`T` of `impl<T: Spanned> Node for T`)
    name = "Any" if re.search(rf"(^|, ){re.escape(last(on))}(:|,|$)", parameters) and last(on) == on.rstrip(" {") else last(on)
    return name + (last(of) if is_trait else "")


def last(text):
    """The last name of a path."""
    return (re.match(r"\s*([\w:]+)", text) or ["", ""])[1].split("::")[-1]


def function_at(text, at):
    """The function that holds a place of a module's text, the type of its `impl` as `implemented` gives it, or its trait, and the words of the
    trait's own types, as `AllocError` of `impl From<AllocError> for Error`. Each is `None`, or empty, where there is none."""
    function, on, words, end = None, None, (), "}"
    for line in text[: text.find("\n", at) + 1].splitlines():
        if implemented(line):
            trait = re.search(r"<([^<>]*(?:<[^<>]*>[^<>]*)*)> for ", line)
            on, words = implemented(line), tuple(re.findall(r"\w+", trait[1])) if trait else ()
        elif TRAIT.match(line):
            on, words = TRAIT.match(line)[1], ()
        elif line.startswith("}"):
            on, words = None, ()
        found = FUNCTION.match(line)
        if found:
            function, end = found[2], f"{found[1]}}}"
        elif line == end:
            function = None
    return function, on, words
