"""The page of the manual of a program, made of what it says to `--help`."""

import re
import subprocess

ABOUT = {
    "ecmagen": "print a syntax tree of ECMAScript, JSX or TypeScript as source text",
    "ecmafix": "print a syntax tree with the parentheses that its text needs",
    "ecmaprint": "print syntax trees by requests, one a line",
}
OPTION = re.compile(r"^ {1,8}(-.+?)(?: {2,}(.*))?$")


def help_of(program):
    """What a program says to `--help`; nothing where it doesn't know that word."""
    ran = subprocess.run([program, "--help"], stdin=subprocess.DEVNULL, stdout=subprocess.PIPE, stderr=subprocess.DEVNULL, check=False, timeout=60)
    return ran.stdout.decode(errors="replace") if ran.returncode == 0 else ""


def escaped(text):
    """A text as roff has it."""
    plain = text.replace("\\", "\\e").replace("-", "\\-")
    return re.sub(r"^([.'])", r"\\&\1", plain)


def options_of(lines):
    """The lines of a help text as roff: an option a paragraph, with its text beside it; other lines as they are."""
    made, width = [], 0
    for line in lines:
        found = OPTION.match(line)
        if found:
            width = found.start(2) if found[2] else 0
            made += [".TP", f"\\fB{escaped(found[1])}\\fR", escaped(found[2] or "")]
        elif width and line.startswith(" " * 4) and line.strip():
            made.append(escaped(line.strip()))
        elif not line.strip():
            width = 0
            made.append(".PP")
        elif re.fullmatch(r"\S.*:", line):
            made.append(f".SS {escaped(line[:-1])}")
        else:
            made += [escaped(line.strip())] if width else [".br", escaped(line.strip())]
    return made


def man_page(name, help_text):
    """The page of a program of this name."""
    lines = help_text.strip().split("\n") if help_text.strip() else []
    at = next((at for at, line in enumerate(lines) if re.match(r"usage:", line, re.I)), None)
    usage = re.sub(r"^usage:\s*", "", lines[at], flags=re.I) if at is not None else f"{name} [options]"
    others = [line for other, line in enumerate(lines) if other != at]
    text = options_of(others) if others else ["Its options and faults are told by docs/PROGRAM.md and docs/REQUESTS.md of its repository."]
    also = ", ".join(f"\\fB{other}\\fR(1)" for other in sorted(ABOUT) if other != name)
    page = [f".TH {name.upper()} 1", ".SH NAME", f"{name} \\- {escaped(ABOUT[name])}", ".SH SYNOPSIS", f"\\fB{escaped(usage)}\\fR", ".SH DESCRIPTION", *text]
    return "\n".join([*page, ".SH SEE ALSO", also, ""])
