"""That the files of crates/swc_ecma_codegen_visit which go through the tree type by type are what scripts/dev/make-visit-files makes, and what it
makes of a tree."""

import os
import sys
import unittest

from runs import SCRIPTS, run

sys.path.insert(0, f"{SCRIPTS}/visit_files")

import files  # noqa: E402
import maps  # noqa: E402
import tree  # noqa: E402
import visits  # noqa: E402


class VisitFiles(unittest.TestCase):
    def test_files_are_made(self):
        ran = run("make-visit-files", "--check")
        self.assertEqual((ran.stdout, ran.stderr, ran.returncode), ("", "", 0))

    def test_other_words(self):
        self.assertEqual(run("make-visit-files", "--chekc").returncode, 2)

    def test_each_type_is_visited(self):
        made = "".join(visits.files(tree.Tree()).values())
        for name, one in tree.declared().items():
            if one.is_generic:
                self.assertIn(f"impl<N> Links<N> for {name}<N> {{", made)

    def test_each_field_of_names(self):
        declared = tree.Tree()
        made = visits.files(declared)
        for one in declared.types:
            for field, written in one.fields:
                if written in ("Ident", "Option<Ident>", "BindingIdent<N>"):
                    call = f"{one.name}::{field}(node) => node.links_mut" if one.is_enum else f"self.{field}.links_mut"
                    self.assertIn(call, made[f"src/{one.area}.rt"], f"{one.name}.{field}")

    def test_no_file_is_long(self):
        for name in os.listdir(f"{tree.VISIT}/src"):
            with open(f"{tree.VISIT}/src/{name}", encoding="utf-8") as file:
                self.assertLessEqual(len(file.readlines()), 700, name)

    def test_areas_stand_in_order(self):
        declared = tree.Tree()
        at = {one.name: number for number, one in enumerate(declared.types)}
        for one in declared.types:
            for _, written in one.fields:
                held = declared.named(written)
                if held in at:
                    self.assertLess(at[held], at[one.name], f"{held} in {one.name}")

    def test_map_of_an_option(self):
        declared = tree.Tree()
        self.assertEqual(declared.map("Option<Vec<ExprOrSpread<N>>>", "g", "f"), "map_option (vec_mapped (map_expr_or_spread g f))")
        self.assertIsNone(declared.map("Option<IdentName>", "g", "f"))
        self.assertIn("map_if_stmt g f n = record n { test = map_link f n.test;", maps.files(declared)["specs/MappedStmts.antt"])

    def test_long_lines(self):
        line = "a = record n { " + "; ".join(f"field_{at} = map_link f n.field_{at}" for at in range(9)) + " }"
        self.assertEqual(files.folded(line).split("\n")[:2], ["a = record n {", "  field_0 = map_link f n.field_0;"])


if __name__ == "__main__":
    unittest.main()
