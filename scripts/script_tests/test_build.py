"""scripts/build, in a repository of three small crates, with a builder that only notes what it was asked for."""

import os
import re
import shutil
import subprocess
import tempfile
import time
import unittest

from runs import SCRIPTS, text_of, write, write_program

FAKES = {
    "crates.txt": "below:\napp: below\nother:\n",
    "crates/below/src/lib.rt": "one",
    "crates/below/specs/Lib.antt": "one",
    "crates/app/src/main.rt": "one",
    "crates/other/src/lib.rt": "one",
    "scripts/shown_program/main.txt": "one",
    "scripts/shown_program/below": "below\n",
}


class Building(unittest.TestCase):
    def setUp(self):
        folder = tempfile.TemporaryDirectory()
        self.addCleanup(folder.cleanup)
        self.top = folder.name
        for path, text in FAKES.items():
            os.makedirs(os.path.join(self.top, os.path.dirname(path)), exist_ok=True)
            write(self.top, path, text)
        for name in ("build", "command_line", "unproved"):
            copy = shutil.copytree if os.path.isdir(f"{SCRIPTS}/{name}") else shutil.copy
            copy(f"{SCRIPTS}/{name}", f"{self.top}/scripts/{name}")
        write(self.top, "START-HERE.md", "")
        os.mkdir(f"{self.top}/bin")
        write_program(self.top, "bin/rt", f"[ $1 = doc ] && echo {self.top}/START-HERE.md || echo kit 1")
        write_program(self.top, "scripts/dev/build-unproved", f'echo "$1 $2" >> {self.top}/asked; echo made > "$3"')

    def built(self, *words):
        """What the script prints, with its status, and what it asked the builder for."""
        write(self.top, "asked", "")
        words = [f"{self.top}/scripts/build", *words]
        path = f"{self.top}/bin:{os.environ['PATH']}"
        ran = subprocess.run(words, capture_output=True, text=True, check=False, env={**os.environ, "PATH": path})
        # (how long it takes is the machine's)
        return re.sub(r"in \d+ s", "in 0 s", ran.stdout), ran.returncode, text_of(f"{self.top}/asked").split("\n")[:-1]

    def test_what_is_built_and_when(self):
        asked = [f"{self.top} app"]
        self.assertEqual(self.built("app"), ("out/app: built in 0 s\n", 0, asked))
        self.assertEqual(text_of(f"{self.top}/out/app"), "made\n")
        self.assertEqual(self.built("app"), ("out/app: up to date\n", 0, []))
        self.assertEqual(self.built("--force", "app"), ("out/app: built in 0 s\n", 0, asked))
        for path in ("crates/app/src/main.rt", "crates/below/src/lib.rt", "crates/below/specs/Lib.antt", "scripts/dev/build-unproved"):
            write(self.top, path, text_of(f"{self.top}/{path}") + "\n# two")
            self.assertEqual(self.built("app"), ("out/app: built in 0 s\n", 0, asked), path)
        for path in ("crates/other/src/lib.rt", "scripts/shown_program/main.txt"):
            write(self.top, path, "two")
            self.assertEqual(self.built("app"), ("out/app: up to date\n", 0, []), path)
        os.remove(f"{self.top}/out/app")
        self.assertEqual(self.built("app"), ("out/app: built in 0 s\n", 0, asked))
        write_program(self.top, "bin/rt", f"[ $1 = doc ] && echo {self.top}/START-HERE.md || echo kit 2")
        self.assertEqual(self.built("app"), ("out/app: built in 0 s\n", 0, asked))

    def test_programs_of_scripts(self):
        self.assertEqual(self.built("shown"), ("out/swc_ecma_codegen_shown: built in 0 s\n", 0, [f"{self.top} shown"]))
        write(self.top, "crates/app/src/main.rt", "two")
        self.assertEqual(self.built("shown"), ("out/swc_ecma_codegen_shown: up to date\n", 0, []))

    def test_the_last_program_stays_where_none_is_built(self):
        self.built("app")
        write_program(self.top, "scripts/dev/build-unproved", "exit 1")
        self.assertEqual(self.built("app"), ("", 1, []))
        self.assertEqual(text_of(f"{self.top}/out/app"), "made\n")

    def test_one_run_waits_for_another(self):
        begun, ends = f"{self.top}/begun", f"{self.top}/ends"
        write_program(self.top, "scripts/dev/build-unproved", f'echo one >> {begun}; while [ ! -e {ends} ]; do sleep 0.05; done; echo made > "$3"')
        words, environment = [f"{self.top}/scripts/build", "app"], {**os.environ, "PATH": f"{self.top}/bin:{os.environ['PATH']}"}
        start = lambda: subprocess.Popen(words, stdout=subprocess.PIPE, stderr=subprocess.PIPE, text=True, env=environment)
        with start() as first:
            while not os.path.exists(begun):
                time.sleep(0.05)
            with start() as second:
                self.assertEqual(second.stderr.readline(), "out/app: another run builds it, and this one waits for that\n")
                write(self.top, "ends", "")
                self.assertEqual(second.communicate()[0], "out/app: up to date\n")
            self.assertRegex(first.communicate()[0], r"^out/app: built in \d+ s\n$")
        self.assertEqual(text_of(begun), "one\n")
        self.assertEqual(sorted(os.listdir(f"{self.top}/out")), ["app", "app.lock", "app.sources"])

    def test_a_folder_that_cannot_be_written(self):
        write(self.top, "out", "")
        ran = subprocess.run([f"{self.top}/scripts/build", "app"], capture_output=True, text=True, check=False)
        self.assertEqual((ran.returncode, ran.stdout), (1, ""))
        self.assertIn("/out: nothing can be written there: ", ran.stderr)

    def test_progress(self):
        words, environment = [f"{self.top}/scripts/build", "app", "shown"], {**os.environ, "PATH": f"{self.top}/bin:{os.environ['PATH']}"}
        for told in ("that takes 2 to 5 minutes", "the last time it took 0 s"):
            ran = subprocess.run([*words, "--force"], capture_output=True, text=True, check=False, env=environment)
            self.assertEqual(ran.stderr.split("\n")[0], f"out/app: is built now (1 of 2); {told}")
            self.assertEqual(ran.stderr.split("\n")[1], f"out/swc_ecma_codegen_shown: is built now (2 of 2); {told}")

    def test_what_is_no_program(self):
        for name in ("below", "nix", "../app"):
            self.assertEqual(self.built(name), ("", 2, []))


if __name__ == "__main__":
    unittest.main()
