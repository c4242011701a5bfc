"""out/ecmafix, on the tree of examples/ that lacks parentheses, on the rows, and by what Babel reads in its texts."""

import subprocess
import tempfile
import unittest

from runs import JQUERY, TOP, run, text_of, write

PROGRAM = f"{TOP}/out/ecmafix"
REPLACED = "total = (a + b) * c;\n({\n    a: 1\n}).length;\nif (a) {\n    if (b) c;\n} else d;\n"


class Fix(unittest.TestCase):
    def test_the_tree_of_a_code_mod(self):
        tree = text_of(f"{TOP}/examples/replaced.json")
        for words, text in (([], REPLACED), (["--minify"], "total=(a+b)*c;({a:1}).length;if(a){if(b)c}else d;")):
            ran = subprocess.run([PROGRAM, *words], input=tree, capture_output=True, text=True, check=False)
            self.assertEqual((ran.returncode, ran.stdout, ran.stderr), (0, text, ""))

    def test_the_fewest(self):
        tree = run("tree-of", "-", given="((a) + (b)) * c;\n").stdout
        for words, pairs in (([], 3), (["--fewest"], 1)):
            ran = subprocess.run([PROGRAM, *words], input=tree, capture_output=True, text=True, check=False)
            self.assertEqual((ran.returncode, ran.stdout.count("("), ran.stderr), (0, pairs, ""))

    def test_the_nearest_option(self):
        near = {"--minfy": "--minify", "--inline_script": "--inline-script", "--ascii": "--ascii-only", "--fewer": "--fewest", "--x": None}
        for word, option in near.items():
            ran = subprocess.run([PROGRAM, word], input="", capture_output=True, text=True, check=False)
            meant = f": is {option} meant?" if option else ""
            self.assertEqual((ran.returncode, ran.stderr), (2, f"ecmafix: no option {word}{meant} (--help lists all)\n"))

    def test_runs_of_the_rows(self):
        ran = run("try-runs", PROGRAM)
        self.assertRegex(ran.stdout, r"\n1\d{3} passed, 0 failed\n$")

    def test_random_trees(self):
        for words in ([], ["--modules", "--jsx", "--minify"]):
            ran = run("try-structure", PROGRAM, "--fix", "--trees", "200", *words)
            self.assertIn(" 0 disagreements", ran.stdout)

    def test_random_trees_with_types(self):
        for words in ([], ["--minify"]):
            self.assertIn(", 0 disagreements\n", run("try-structure", PROGRAM, "--types", "--trees", "100", *words).stdout)

    def test_files(self):
        told = run("try-structure", PROGRAM, "--fix", JQUERY).stdout
        self.assertIn("1 are derivations; without their parentheses and after the pass 1 are read as the same tree, 1 as that of the file", told)
        with tempfile.TemporaryDirectory() as folder:
            write(folder, "a.ts", "let a = (b as C).d, e = (<F>g)!(h), i = (j?.k)!.l, m = -(n as any) || (o satisfies P);\n" * 30)
            told = run("try-structure", PROGRAM, "--fix", folder).stdout
        self.assertIn("1 more with types or decorators: 1 are read as the tree of the file", told)


if __name__ == "__main__":
    unittest.main()
