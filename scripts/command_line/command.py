"""What all scripts in Python have of a command: `--help`, wrong words, and faults of their input in a line."""

import json
import os
import re
import shutil
import subprocess
import sys

sys.dont_write_bytecode = True


def run(main, usage):
    """Runs `main`, and ends with its status. The text `usage` is printed where `-h` or `--help` is among the words.

    Where `main` ends by `sys.exit(usage)`, or takes a word for a number that is none, its words were wrong: the lines of `usage` that say them
    go to standard error, with status 2. A file that can't be read, JSON that is none, and a program that can't be run or fails, give a
    line and status 1.
    """
    try:
        if any(word in ("-h", "--help") for word in sys.argv[1:]):
            print(usage.strip(), flush=True)
            sys.exit(0)
        sys.exit(main())
    except SystemExit as ended:
        if ended.code is not usage:
            raise
        tell_words(usage)
    except BrokenPipeError:
        # (whoever read the answer has enough of it)
        os.dup2(os.open(os.devnull, os.O_WRONLY), 1)
        sys.exit(1)
    except KeyboardInterrupt:
        sys.exit("stopped")
    except OSError as error:
        sys.exit(f"{error.filename}: {error.strerror}" if error.filename else str(error))
    except UnicodeDecodeError as error:
        sys.exit(f"a file isn't UTF-8 at byte {error.start + 1}")
    except json.JSONDecodeError as error:
        sys.exit(f"no JSON: {error}")
    except ValueError as error:
        if not re.match(r"invalid literal for int|could not convert string to float", str(error)):
            raise
        tell_words(usage)
    except subprocess.CalledProcessError as error:
        sys.exit(f"{error.cmd[0]}: status {error.returncode}")


def tell_words(usage):
    """Ends with what the words are to be."""
    print(f"{words_of(usage)}\n(--help tells more)", file=sys.stderr)
    sys.exit(2)


def words_of(usage):
    """The lines of a text that say how a script is called."""
    lines = usage.strip().split("\n")
    first = next(at for at, line in enumerate(lines) if line.startswith("usage:"))
    last = next((at for at in range(first, len(lines)) if not lines[at].strip()), len(lines))
    return "\n".join(lines[first:last])


def check_programs(*commands):
    """Ends where one of these is no program that can be run. Behind its path a command may have words."""
    for path in (command.split()[0] for command in commands if command.strip()):
        if shutil.which(path) is None:
            sys.exit(f"{path}: no such program")


def text_of(path):
    """The text of a file of UTF-8, or of standard input where the path is `-`."""
    with open(0 if path == "-" else path, encoding="utf-8") as file:
        try:
            return file.read()
        except UnicodeDecodeError as error:
            sys.exit(f"{path}: not UTF-8 at byte {error.start + 1}")


def json_of(path):
    """The value of a file of JSON, or of standard input where the path is `-`."""
    return json_in(text_of(path), path)


def json_in(text, path):
    """The value of a text of JSON, which is that of a file."""
    try:
        return parsed(text, path)
    except json.JSONDecodeError as error:
        sys.exit(f"{path}:{error.lineno}:{error.colno}: no JSON: {error.msg}")


def trees_of(path):
    """The trees of a file, each with a name: one of JSON, or one a line, as `{"tree":..}` too."""
    text = text_of(path)
    try:
        found = [(path, parsed(text, path))]
    except json.JSONDecodeError as error:
        found, whole = [], error
        for at, line in enumerate(text.split("\n"), 1):
            try:
                found += [(f"{path}:{at}", parsed(line, path))] if line else []
            except json.JSONDecodeError as of_line:
                # (where none of its lines is JSON it is one text)
                where = whole if not found else of_line
                sys.exit(f"{path}:{where.lineno if not found else at}:{where.colno}: no JSON: {where.msg}")
    return [(name, tree.get("tree", tree) if isinstance(tree, dict) else tree) for name, tree in found]


def parsed(text, path):
    if text.startswith("\ufeff"):
        sys.exit(f"{path}: it begins with a byte order mark, which JSON has none of")
    try:
        return json.loads(text)
    except RecursionError:
        sys.exit(f"{path}: its JSON nests too deep")
