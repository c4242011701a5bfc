"""Runs of scripts, for their tests."""

import os
import subprocess

SCRIPTS = os.path.dirname(os.path.dirname(os.path.abspath(__file__)))
TOP = os.path.dirname(SCRIPTS)
JQUERY = "/usr/share/javascript/jquery/jquery.js"
LODASH = "/usr/share/nodejs/lodash/lodash.js"
LIB_DOM = "/usr/share/nodejs/typescript/lib/lib.dom.d.ts"
PACKAGES = {**os.environ, "NODE_PATH": "/usr/share/nodejs:/usr/lib/nodejs"}


def path_of(name):
    """Where a script is: those for developers have a folder of their own."""
    return next((path for path in (f"{SCRIPTS}/{name}", f"{SCRIPTS}/dev/{name}") if os.path.isfile(path)), f"{SCRIPTS}/{name}")


def run(name, *words, given="", seconds=120):
    """What a script does with these words: its status, and the texts of both of its streams."""
    return subprocess.run(
        [path_of(name), *words], input=given, capture_output=True, text=True, check=False, timeout=seconds, cwd=TOP
    )  # fmt: skip


def ecmagen(tree, *words):
    """What out/ecmagen does with a tree."""
    return subprocess.run([f"{TOP}/out/ecmagen", *words], input=tree, capture_output=True, text=True, check=False)


def node(name, *words, given=""):
    """What a program beside this file does, with Debian's packages."""
    words = ["node", os.path.join(os.path.dirname(os.path.abspath(__file__)), name), *words]
    return subprocess.run(words, input=given, capture_output=True, text=True, check=False, env=PACKAGES)


def write(folder, name, text):
    path = os.path.join(folder, name)
    os.makedirs(os.path.dirname(path), exist_ok=True)
    with open(path, "w", encoding="utf-8", newline="") as file:
        file.write(text)
    return path


def write_program(folder, name, text):
    """A program of the shell."""
    path = write(folder, name, f"#!/bin/sh\n{text}\n")
    os.chmod(path, 0o755)
    return path


def text_of(path):
    with open(path, encoding="utf-8", newline="") as file:
        return file.read()
