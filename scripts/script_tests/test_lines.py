"""scripts/dev/try-lines, on the trees that are kept with what Babel says of their lines."""

import glob
import json
import os
import tempfile
import unittest

from runs import TOP, run, text_of, write

KEPT = sorted(glob.glob(f"{TOP}/tests/swc_ecma_codegen_cases/lines/*.json"))


class Kept(unittest.TestCase):
    def test_all_hold(self):
        ran = run("try-lines", "out/ecmagen", "--max-line", "12", "--max-line", "80", "--kept", *KEPT)
        self.assertEqual((ran.returncode, ran.stdout, ran.stderr), (0, f"{3 * len(KEPT)} passed, 0 failed\n", ""))

    def told(self, **changed):
        """What is told of a kept tree, something of which was changed."""
        kept = json.loads(text_of(KEPT[1]))
        with tempfile.TemporaryDirectory() as folder:
            path = write(folder, "a.json", json.dumps({**kept, **{name: change(kept[name]) for name, change in changed.items()}}))
            ran = run("try-lines", "out/ecmagen", "--max-line", "12", "--kept", path)
        self.assertEqual(ran.returncode, 1)
        return ran.stdout

    def test_the_second_is_a_file_of_declarations(self):
        self.assertEqual(os.path.basename(KEPT[1]), "overloads.json")
        text = json.loads(text_of(KEPT[1]))["text"]
        self.assertTrue(text.startswith("declare function f():void;declare function f(a:string):number;"))

    def test_a_line_that_may_be_ended_elsewhere(self):
        self.assertRegex(self.told(breaks=lambda places: sorted({*places, 8})), r"a line may be ended at 8\n1 passed, 1 failed\n\Z")

    def test_a_line_that_may_not_be_ended_there(self):
        self.assertRegex(self.told(breaks=lambda places: places[:1] + places[2:]), r"no line may be ended\n1 passed, 1 failed\n\Z")

    def test_another_text(self):
        self.assertRegex(self.told(text=lambda text: text + ";"), r"another text than the one that is kept\n")


if __name__ == "__main__":
    unittest.main()
