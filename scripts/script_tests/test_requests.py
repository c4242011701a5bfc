"""scripts/dev/try-requests over out/ecmaprint, and the clients of examples/: their texts, and where source maps lead."""

import os
import subprocess
import tempfile
import unittest

from runs import PACKAGES, TOP, node, run, text_of, write

PROGRAM = f"{TOP}/out/ecmaprint"
SOURCE = "// first\nvar a = [1,\n  2], é = `x${b}`;\n/* last */ f(a, é);\n"


class Requests(unittest.TestCase):
    def test_answers(self):
        ran = run("try-requests", PROGRAM, "--quick")
        self.assertRegex(ran.stdout, r"\n\d{4} passed, 0 failed\n$")
        self.assertEqual(ran.returncode, 0)


class Client(unittest.TestCase):
    def printed(self, folder, *words):
        path = write(folder, "a.js", SOURCE)
        words = ["node", f"{TOP}/examples/print-with-map.js", PROGRAM, *words, path]
        ran = subprocess.run(words, capture_output=True, text=True, check=False, env=PACKAGES)
        self.assertEqual((ran.returncode, ran.stderr), (0, ""))
        return path, text_of(f"{path}.out")

    def test_texts(self):
        with tempfile.TemporaryDirectory() as folder:
            _, text = self.printed(folder)
            self.assertEqual(text, "// first\nvar a = [1,\n    2], é = `x${b}`;\n/* last */ f(a, é);\n//# sourceMappingURL=a.js.out.map\n")
            _, text = self.printed(folder, "--minify")
            self.assertIn("f(a,é)", text)

    def test_names_stand_where_the_map_says(self):
        with tempfile.TemporaryDirectory() as folder:
            path, _ = self.printed(folder)
            told = node("mapped_names.js", f"{path}.out", f"{path}.out.map", path, "--places")
            self.assertEqual((told.stdout, told.stderr), ("6 names\n", ""))

    def test_a_name_becomes_an_expression(self):
        with tempfile.TemporaryDirectory() as folder:
            path = write(folder, "a.js", "// first\nf(x, x * c, { x: 1 }.x, x.y, [{ x }]);\nlet x;\n")
            words = ["node", f"{TOP}/examples/replace-name.js", PROGRAM, "x", "a + b", path]
            ran = subprocess.run(words, capture_output=True, text=True, check=False, env=PACKAGES)
            text = "// first\nf(a + b, (a + b) * c, {\n    x: 1\n}.x, (a + b).y, [\n    {\n        x: a + b\n    }\n]);\nlet x;\n"
            self.assertEqual((ran.returncode, ran.stdout, ran.stderr), (0, text, ""))


if __name__ == "__main__":
    unittest.main()
