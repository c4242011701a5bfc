"""What scripts say to words that are none, and to files that aren't there."""

import os
import tempfile
import unittest
from concurrent.futures import ThreadPoolExecutor

from runs import SCRIPTS, run, write


def scripts_in(folder):
    """The scripts of a folder below scripts/, by their paths there."""
    names = os.listdir(f"{SCRIPTS}/{folder}") if os.path.isdir(f"{SCRIPTS}/{folder}") else []
    paths = [os.path.join(folder, name) for name in sorted(names)]
    return [path for path in paths if os.path.isfile(f"{SCRIPTS}/{path}") and os.access(f"{SCRIPTS}/{path}", os.X_OK)]


ALL = [*scripts_in(""), *scripts_in("dev")]
# these do their work without words
BUSY = ["build", "build-bench", "install", "jsx-trees", "make-cases", "make-links", "make-map", "make-visit-files", "pack", "read-back", "test", "try-runs", "try-tests", "try-trees", "ts-trees"]


MISSING = f"{os.path.abspath(__file__)}/missing"  # below a file nothing can be made either


def answers(asked):
    """What scripts say to words, as many at once as there are processors: each script with its words and what it did."""
    with ThreadPoolExecutor(os.cpu_count()) as pool:
        return list(zip(asked, pool.map(lambda one: run(one[0], *one[1]), asked)))


class Words(unittest.TestCase):
    def is_told(self, ran):
        self.assertNotIn("Traceback", ran.stderr)
        self.assertNotRegex(ran.stderr, r"(?m)^    at ")
        self.assertLess(len(ran.stderr.split("\n")), 12)

    def test_help(self):
        for (name, words), ran in answers([(name, [word]) for name in ALL for word in ("-h", "--help")]):
            with self.subTest(script=name, words=words):
                self.assertEqual((ran.returncode, ran.stderr), (0, ""))
                self.assertIn(f"usage: scripts/{name}", ran.stdout)

    def test_no_words(self):
        for (name, _), ran in answers([(name, []) for name in ALL if os.path.basename(name) not in BUSY]):
            with self.subTest(script=name):
                self.assertEqual((ran.returncode, ran.stdout), (2, ""))
                self.assertIn(f"usage: scripts/{name}", ran.stderr)
                self.is_told(ran)

    def test_wrong_words_and_files_that_are_not_there(self):
        wrong = [["--nix"], ["--nix", MISSING], *([MISSING] * count for count in (1, 2, 3, 4))]
        for (name, words), ran in answers([(name, words) for name in ALL for words in wrong]):
            with self.subTest(script=name, words=words):
                self.assertIn(ran.returncode, (1, 2))
                self.is_told(ran)


class Trees(unittest.TestCase):
    def test_a_byte_order_mark_before_json(self):
        with tempfile.TemporaryDirectory() as folder:
            path = write(folder, "a.json", '\ufeff{"Script":{"span":{"lo":0,"hi":0},"body":[],"shebang":null}}')
            for name, words in (("print-with-comments", [path, path]), ("join-trees", ["1", path]), ("read-back", ["true", path]), ("try-lines", ["true", path])):
                with self.subTest(script=name):
                    ran = run(name, *words)
                    self.assertEqual((ran.returncode, ran.stdout), (1, ""))
                    self.assertIn("begins with a byte order mark", ran.stderr)

    def test_no_json(self):
        with tempfile.TemporaryDirectory() as folder:
            path = write(folder, "a.json", '{"Script":\n  nix}')
            ran = run("print-with-comments", path, path)
            self.assertEqual(ran.stderr, f"{path}:2:3: no JSON: Expecting value\n")
            self.assertEqual(run("read-back", "true", path).stderr, f"{path}:2:3: no JSON: Expecting value\n")
            path = write(folder, "b.json", '{"tree":{}}\n{"tree":nix}\n')
            self.assertEqual(run("try-lines", "true", path).stderr, f"{path}:2:9: no JSON: Expecting value\n")

    def test_programs_that_cannot_be_run(self):
        with tempfile.TemporaryDirectory() as folder:
            path = write(folder, "program", "")
            for name in ("try-inputs", "try-depth", "try-places"):
                with self.subTest(script=name):
                    self.assertEqual(run(name, path).stderr, f"{path}: no such program\n")


if __name__ == "__main__":
    unittest.main()
