"""Source maps of scripts/print: those that go through the map of their own file, and what they hold."""

import base64
import json
import os
import tempfile
import unittest

from runs import TOP, node, run, text_of, write

# `b.js` was made of `a.ts`: each name of its one line leads to a name there
MADE = "let first=second+third;\n"
SOURCE = "let first: number =\n    second +\n    third;\n"
NAMES = ((4, 1, 4, "first"), (10, 2, 4, "second"), (17, 3, 4, "third"))


class Mapping(unittest.TestCase):
    def setUp(self):
        folder = tempfile.TemporaryDirectory()
        self.addCleanup(folder.cleanup)
        self.folder = folder.name
        os.makedirs(f"{self.folder}/made")
        os.makedirs(f"{self.folder}/out")

    def map_of_made(self):
        """A map from `MADE` to `SOURCE`, by the library."""
        told = node("small_map.js", "b.js", "../src/a.ts", SOURCE, json.dumps(NAMES))
        self.assertEqual(told.stderr, "")
        return told.stdout

    def printed(self, text, *words):
        """The map of a file with this text, and what is told on the way."""
        path, out = write(f"{self.folder}/made", "b.js", text), f"{self.folder}/out/c.js"
        ran = run("print", path, "-o", out, "--map", *words)
        self.assertEqual((ran.returncode, ran.stdout), (0, ""), ran.stderr)
        self.assertEqual(text_of(out), "let first = second + third;\n//# sourceMappingURL=c.js.map\n")
        return json.loads(text_of(f"{out}.map")), ran.stderr

    def leads_to_source(self, made):
        self.assertEqual((made["sources"], made["sourcesContent"], made["file"]), (["../src/a.ts"], [SOURCE], "c.js"))
        write(self.folder, "c.map", json.dumps(made))
        told = node("mapped_places.js", f"{self.folder}/c.map", "1:4", "1:12", "1:21")
        self.assertEqual(told.stdout, "".join(f"../src/a.ts:{line}:{column} {name}\n" for _, line, column, name in NAMES))

    def test_a_map_that_the_file_names(self):
        write(f"{self.folder}/made", "b.js.map", self.map_of_made())
        made, told = self.printed(f"{MADE}//# sourceMappingURL=b.js.map\n")
        self.leads_to_source(made)
        self.assertEqual(told, "")
        self.assertEqual(self.printed(f"{MADE}//# sourceMappingURL=b.js.map\n", "--comments")[0], made)
        whole = base64.b64encode(self.map_of_made().encode()).decode()
        self.leads_to_source(self.printed(f"{MADE}//# sourceMappingURL=data:application/json;base64,{whole}")[0])
        made, _ = self.printed(f"{MADE}//# sourceMappingURL=b.js.map\n", "--input-map", "no")
        self.assertEqual(made["sources"], ["../made/b.js"])

    def test_a_map_that_is_given(self):
        path = write(self.folder, "made/other.map", self.map_of_made())
        self.leads_to_source(self.printed(MADE, "--input-map", path)[0])

    def test_maps_that_are_none(self):
        made, told = self.printed(f"{MADE}//# sourceMappingURL=nix.map\n")
        self.assertEqual(made["sources"], ["../made/b.js"])
        self.assertIn("b.js: warning: the map that it names is left out: ", told)
        self.assertIn("nix.map: no such file\n", told)
        for text, what in (("nix", "no JSON"), ('{"version": 2}', "no source map of version 3")):
            ran = run("print", "-", "--map", "--input-map", write(self.folder, "x.map", text), given="a")
            self.assertEqual((ran.returncode, ran.stdout), (1, ""))
            self.assertIn(f"x.map: {what}", ran.stderr)

    def test_what_a_map_holds(self):
        made, _ = self.printed(MADE, "--sources-content", "no", "--source-root", "https://a.b/c/")
        self.assertNotIn("sourcesContent", made)
        self.assertEqual((made["sourceRoot"], made["sources"]), ("https://a.b/c/", ["../made/b.js"]))

    def test_comments_that_get_other_lines(self):
        source = write(self.folder, "d.js", "class A {\n\t/**\n\t * Doc.\n\t */\n\tone = two; // three\n\tfour() {\n\t\t// five\n\t}\n\t// six\n}\nseven(eight /* nine */, ten);\n")
        out = f"{self.folder}/out/d.js"
        ran = run("print", source, "-o", out, "--map", "--comments")
        self.assertEqual((ran.returncode, ran.stderr), (0, ""))
        told = node("mapped_names.js", out, f"{out}.map", source)
        self.assertEqual((told.stdout, told.stderr), ("7 names\n", ""))


if __name__ == "__main__":
    unittest.main()
