"""scripts/dev/try-structure, on a few trees and a file."""

import tempfile
import unittest

from runs import JQUERY, TOP, run, write_program


class Structure(unittest.TestCase):
    def agreed(self, *words):
        ran = run("try-structure", f"{TOP}/out/ecmagen", *words)
        self.assertEqual((ran.returncode, ran.stderr), (0, ""), ran.stdout)
        return ran.stdout

    def test_random_trees(self):
        self.assertRegex(self.agreed("--trees", "300"), r"^300 trees, 0 more not printed: \d+ without a fault, \d+ with one; .* 0 disagreements\n$")
        self.assertIn(" 0 disagreements", self.agreed("--trees", "150", "--modules", "--jsx", "--minify"))

    def test_the_pass_and_one_of_its_pairs_left_out(self):
        self.assertIn(" 0 disagreements", self.agreed("--trees", "150", "--pass"))
        self.assertIn(" 0 disagreements", self.agreed("--trees", "300", "--cut"))

    def test_names_and_operators_in_each_place(self):
        told = self.agreed("--contexts", "--trees", "2000")
        self.assertRegex(told, r"^\d{4} programs, \d+ derivations; \d+ where one parser alone says otherwise; 0 disagreements\n$")
        self.assertIn(" 0 disagreements", self.agreed("--deep", "--trees", "1500"))

    def test_files(self):
        told = self.agreed(JQUERY)
        self.assertIn("1 are derivations; without their parentheses and after the pass 1 are read as the same tree, 1 as that of the file", told)

    def test_a_program_that_prints_otherwise(self):
        with tempfile.TemporaryDirectory() as folder:
            path = write_program(folder, "other", f"{TOP}/out/ecmagen \"$@\" | sed 's/a/b/'")
            ran = run("try-structure", path, "--trees", "30")
            self.assertEqual((ran.returncode, ran.stderr), (1, ""))
            self.assertIn("no fault by the table, but by Babel: another tree", ran.stdout)


if __name__ == "__main__":
    unittest.main()
