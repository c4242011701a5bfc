"""Copies of this repository with what the gate builds and runs without a proof.

- A folder of tests/ with a file `below` is a crate of tests: `below` names the libraries that it uses, and src/ has its modules, which
  end with `.txt`, since `rt ci` proves each file that ends with `.rt`.
- Another folder of tests/ has tests of the crate of that name that see what is private: src/positions.txt there is written behind
  src/positions.rt of the crate.
- scripts/NAME_program is a program of the same form, without a folder src/. Its crate is swc_ecma_codegen_NAME.
"""

import os
import shutil
import subprocess

TOP = os.path.dirname(os.path.dirname(os.path.dirname(os.path.abspath(__file__))))
TESTS = os.path.join(TOP, "tests")


def kit():
    """The folder of the kit: that of its first page, of which `rt doc` tells."""
    said = subprocess.run(["rt", "doc"], stdout=subprocess.PIPE, check=True, text=True)
    return os.path.dirname(os.path.realpath(said.stdout.strip()))


def copy(to):
    """Copies what `rt` reads of the repository, with nothing that was made."""
    shutil.copytree(f"{TOP}/crates", f"{to}/crates", ignore=shutil.ignore_patterns("out"))
    for name in ("crates.txt", "HANDLES"):
        shutil.copy(f"{TOP}/{name}", f"{to}/{name}")


def put(to, name):
    """Puts a crate of tests, the tests of a crate, or a program of scripts/ into a copy, and returns the crate's name."""
    at = f"{TOP}/scripts/{name}_program"
    parts, crate = at, f"swc_ecma_codegen_{name}"
    if not os.path.isdir(at):
        at, parts, crate = f"{TESTS}/{name}", f"{TESTS}/{name}/src", name
    if os.path.isdir(at):
        for part in sorted(it for it in os.listdir(parts) if it.endswith(".txt")):
            append(f"{parts}/{part}", f"{to}/crates/{crate}/src/{part[:-4]}.rt")
        if os.path.isfile(f"{at}/below"):
            with open(f"{at}/below") as below, open(f"{to}/crates.txt", "a") as file:
                file.write(f"{crate}: {below.read().strip()}\n")
    return crate


def append(part, to):
    """Writes a file behind another one, or as a new one."""
    os.makedirs(os.path.dirname(to), exist_ok=True)
    with open(part, encoding="utf-8", newline="") as written, open(to, "a", encoding="utf-8", newline="") as file:
        file.write(("\n" if file.tell() else "") + written.read())
