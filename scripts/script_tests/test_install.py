"""scripts/install, with programs that only tell what they are."""

import os
import shutil
import subprocess
import tempfile
import unittest

from runs import run, text_of, write_program

NAMES = ("ecmafix", "ecmagen", "ecmaprint")
HELP = """usage: {name} [OPTIONS] < TREE

Prints a tree.

Options:
  --minify        blanks and line ends stand only
                  where one is needed
  --target NAME   es5, 'es2015' .. \\\\ x
"""


def files_below(folder):
    return sorted(os.path.relpath(os.path.join(at, file), folder) for at, _, files in os.walk(folder) for file in files)


class Installing(unittest.TestCase):
    def setUp(self):
        folder = tempfile.TemporaryDirectory()
        self.addCleanup(folder.cleanup)
        self.folder, self.prefix = f"{folder.name}/programs", f"{folder.name}/prefix"
        os.mkdir(self.folder)
        for name in NAMES:
            write_program(self.folder, name, f"cat <<'END'\n{HELP.format(name=name)}END")

    def run_it(self, *words):
        return run("install", "--prefix", self.prefix, *words)

    def test_what_is_installed_and_taken_away(self):
        os.makedirs(f"{self.prefix}/bin")
        ran = self.run_it("--from", self.folder)
        self.assertEqual((ran.returncode, ran.stderr), (0, f"{self.prefix}/bin isn't on the PATH\n"))
        files = [name for name in files_below(self.prefix) if not name.startswith("lib/node_modules/")]
        wanted = [f"bin/{name}" for name in NAMES] + ["share/ecmaprint/installed"] + [f"share/man/man1/{name}.1" for name in NAMES]
        self.assertEqual(files, wanted)
        package = f"{self.prefix}/lib/node_modules/ecmaprint"
        asked = subprocess.run(["node", "-p", f"require('{package}/lib/programs.js').programPath()"], capture_output=True, text=True, check=True)
        self.assertEqual(asked.stdout, f"{package}-linux-x64/ecmaprint\n")
        told = subprocess.run([f"{self.prefix}/bin/ecmagen"], capture_output=True, text=True, check=True)
        self.assertIn("usage: ecmagen", told.stdout)
        self.assertEqual(self.run_it("--from", self.folder).stdout, ran.stdout)
        ran = self.run_it("--uninstall")
        self.assertEqual((ran.returncode, ran.stderr), (0, ""))
        self.assertEqual(os.listdir(self.prefix), ["bin"])
        self.assertEqual(os.listdir(f"{self.prefix}/bin"), [])
        ran = self.run_it("--uninstall")
        self.assertEqual((ran.returncode, ran.stdout), (1, ""))
        self.assertIn("nothing was installed there", ran.stderr)

    def test_pages_of_the_manual(self):
        self.run_it("--from", self.folder)
        path = f"{self.prefix}/share/man/man1/ecmagen.1"
        page = text_of(path)
        self.assertTrue(page.startswith(".TH ECMAGEN 1\n.SH NAME\necmagen \\- print a syntax tree"))
        self.assertIn("\n.TP\n\\fB\\-\\-minify\\fR\nblanks and line ends stand only\nwhere one is needed\n", page)
        if shutil.which("man") and shutil.which("groff"):
            shown = subprocess.run(["man", "--warnings", "-l", path], capture_output=True, text=True, check=False, env={**os.environ, "MANPAGER": "cat", "MANWIDTH": "100", "LC_ALL": "C.UTF-8"})
            self.assertEqual((shown.returncode, shown.stderr), (0, ""))
            self.assertRegex(shown.stdout, r"--target NAME\n +es5, 'es2015' \.\. \\\\ x\n")

    def test_programs_that_have_no_help(self):
        for name in NAMES:
            write_program(self.folder, name, "exit 2")
        self.assertEqual(self.run_it("--from", self.folder).returncode, 0)
        self.assertIn("\\fBecmafix [options]\\fR", text_of(f"{self.prefix}/share/man/man1/ecmafix.1"))

    def test_programs_as_the_gate_leaves_them(self):
        for name in NAMES:
            os.makedirs(f"{self.folder}/{name}.crate/out")
            os.rename(f"{self.folder}/{name}", f"{self.folder}/{name}.crate/out/{name}")
            os.rename(f"{self.folder}/{name}.crate", f"{self.folder}/{name}")
        self.assertEqual(self.run_it("--from", self.folder).returncode, 0)

    def test_nothing_is_half_there(self):
        os.makedirs(f"{self.prefix}/share/man/man1/ecmaprint.1/x")
        ran = self.run_it("--from", self.folder)
        self.assertEqual(ran.returncode, 1)
        self.assertIn("ecmaprint.1", ran.stderr)
        self.assertEqual(files_below(self.prefix), [])

    def test_what_is_not_there(self):
        ran = self.run_it("--from", f"{self.folder}/nix")
        self.assertEqual((ran.returncode, ran.stdout, ran.stderr), (1, "", f"{self.folder}/nix: no program ecmagen\n"))
        for words in (["--prefix"], ["--from"], ["nix"]):
            ran = run("install", *words)
            self.assertEqual((ran.returncode, ran.stdout), (2, ""))
            self.assertIn("usage: scripts/install", ran.stderr)


if __name__ == "__main__":
    unittest.main()
