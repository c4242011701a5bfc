"""scripts/print, on small texts and on real files."""

import base64
import json
import os
import subprocess
import tempfile
import unittest

from runs import JQUERY, LODASH, SCRIPTS, TOP, node, run, text_of, write, write_program


class Printing(unittest.TestCase):
    def setUp(self):
        folder = tempfile.TemporaryDirectory()
        self.addCleanup(folder.cleanup)
        self.folder = folder.name

    def printed(self, name, text, *words):
        ran = run("print", write(self.folder, name, text), *words)
        self.assertEqual((ran.returncode, ran.stderr), (0, ""))
        return ran.stdout

    def test_pretty_and_minified(self):
        self.assertEqual(self.printed("a.js", "a  =\n  b;c()"), "a = b;\nc();\n")
        self.assertEqual(self.printed("a.js", "a  =\n  b;c()", "--minify", "--omit-last-semi"), "a=b;c()")

    def test_standard_input(self):
        ran = run("print", "-", "--minify", given="let a = 1")
        self.assertEqual((ran.returncode, ran.stdout, ran.stderr), (0, "let a=1;", ""))

    def test_kind_of_file_by_its_name(self):
        self.assertEqual(self.printed("a.ts", "let a = <b> c"), "let a = <b>c;\n")
        self.assertEqual(self.printed("a.jsx", "let a = <b> c</b>"), "let a = <b> c</b>;\n")
        self.assertEqual(self.printed("a.tsx", "let a: b = <b> c</b>"), "let a: b = <b> c</b>;\n")

    def test_comments_stand_at_their_places(self):
        text = "// one\na(/* two */ b); // three\n"
        self.assertEqual(self.printed("a.js", text, "--comments"), "// one\na(/* two */ b); // three\n")
        self.assertNotIn("one", self.printed("a.js", text))

    def test_words_of_ecmagen_with_comments(self):
        text = self.printed("a.js", "/* c */ aaaaaaaa(bbbbbbbb, cccccccc, dddddddd)", "--comments", "--minify", "--max-line", "20")
        self.assertEqual(max(len(line) for line in text.split("\n")), 18)
        self.assertEqual(text.replace("\n", ""), "/* c */aaaaaaaa(bbbbbbbb,cccccccc,dddddddd);")
        ran = run("print", "-", "--comments", given="a = '\\\\ud800'")
        self.assertEqual((ran.returncode, ran.stdout), (1, ""))
        self.assertIn("standard input:1:5: not well-formed: the raw of a string spells another string", ran.stderr)
        self.assertIn("\nhint: --any prints it all the same\n", ran.stderr)
        ran = run("print", "-", "--comments", "--any", given="a = '\\\\ud800'")
        self.assertEqual((ran.returncode, ran.stdout), (0, "a = '\\\\ud800';\n"))

    def test_lines_of_arrays_are_those_of_the_source(self):
        text = "a = [1, 2];\nb = [\n    [c, d],\n    [\n        e // f\n    ], ...[g]\n];\n"
        self.assertEqual(self.printed("a.js", text, "--comments"), text)
        self.assertEqual(self.printed("a.js", text), text.replace(" // f", ""))

    def test_indentation_and_line_ends(self):
        given = "class A {\n  /**\n   * m\n   */\n  m() { a(`x\n    ${{ b }}\n  `); }\n}\nc = <d>\n    e\n  </d>;\nf = 'g\\\n    h'; // i\n"
        text = self.printed("a.jsx", given, "--comments", "--indent", "2")
        wanted = "class A {\n  /**\n   * m\n   */\n  m() {\n    a(`x\n    ${{\n      b\n    }}\n  `);\n  }\n}\nc = <d>\n    e\n  </d>;\nf = 'g\\\n    h'; // i\n"
        self.assertEqual(text, wanted)
        ran = subprocess.run([f"{SCRIPTS}/print", f"{self.folder}/a.jsx", "--comments", "--indent", "tab", "--end-of-line", "crlf"], capture_output=True, check=True)
        lines = wanted.replace("\n    ${{\n      b\n    }}\n  `)", "@").replace("<d>\n    e\n  <", "#").replace("\\\n    h", "%").replace("  ", "\t")
        whole = lines.replace("\n", "\r\n").replace("@", "\n    ${{\r\n\t\t\tb\r\n\t\t}}\n  `)").replace("#", "<d>\n    e\n  <").replace("%", "\\\n    h")
        self.assertEqual(ran.stdout.decode(), whole)
        ran = run("print", f"{self.folder}/a.jsx", "--indent", "2", "--positions")
        self.assertIn(f"{given.index('b }') + 1} 4 6", ran.stderr.split("\n"))

    def test_target(self):
        self.assertEqual(self.printed("a.js", "a = 1_000", "--target", "es2020"), "a = 1000;\n")

    def test_positions(self):
        ran = run("print", "-", "--positions", given="a + b")
        self.assertEqual((ran.returncode, ran.stdout), (0, "a + b;\n"))
        self.assertIn("5 0 4", ran.stderr.split("\n"))


class Mapping(unittest.TestCase):
    def setUp(self):
        folder = tempfile.TemporaryDirectory()
        self.addCleanup(folder.cleanup)
        self.folder = folder.name

    def names(self, source, *words):
        """How many names of a text its map takes to the same names of its source, which all of them must be."""
        out = os.path.join(self.folder, "out.js")
        ran = run("print", source, "-o", out, "--map", *words)
        self.assertEqual((ran.returncode, ran.stdout), (0, ""), ran.stderr)
        self.assertTrue(text_of(out).endswith("\n//# sourceMappingURL=out.js.map\n"))
        read = node("mapped_names.js", out, f"{out}.map", source)
        self.assertEqual((read.returncode, read.stderr), (0, ""))
        *others, told = read.stdout.strip().split("\n")
        self.assertEqual(others, [])
        return int(told.removesuffix(" names"))

    def test_names_of_jquery(self):
        pretty = self.names(JQUERY)
        self.assertGreater(pretty, 10_000)
        self.assertEqual(self.names(JQUERY, "--minify", "--omit-last-semi"), pretty)
        self.assertEqual(self.names(JQUERY, "--comments"), pretty)
        self.assertEqual(self.names(JQUERY, "--minify", "--max-line", "80"), pretty)

    def test_names_of_lodash(self):
        self.assertGreater(self.names(LODASH, "--minify", "--any"), 10_000)

    def test_names_beyond_ascii_and_other_line_ends(self):
        source = write(self.folder, "é.js", "\ufeffé = '😀' + 名;\r\n/* \u2028 */ b = 'ü';\rc.名 = `\n${d}`;\u2029e;")
        self.assertEqual(self.names(source), 7)
        self.assertEqual(self.names(source, "--minify"), 7)

    def test_file_and_source_of_a_map(self):
        source, out = write(self.folder, "a.js", "a"), os.path.join(self.folder, "b.js")
        self.assertEqual(run("print", source, "--map", "-o", out).returncode, 0)
        told = json.loads(text_of(f"{out}.map"))
        self.assertEqual((told["version"], told["file"], told["sources"], told["sourcesContent"]), (3, "b.js", ["a.js"], ["a"]))

    def test_map_in_the_text(self):
        ran = run("print", "-", "--map", "--minify", "--omit-last-semi", given="a;b")
        text, _, last = ran.stdout.partition("\n")
        self.assertEqual(text, "a;b")
        head, _, held = last.strip().partition("base64,")
        self.assertEqual(head, "//# sourceMappingURL=data:application/json;charset=utf-8;")
        self.assertEqual(json.loads(base64.b64decode(held))["sources"], ["stdin"])


class Faults(unittest.TestCase):
    def refused(self, status, error, *words, given=""):
        ran = run("print", *words, given=given)
        self.assertEqual((ran.returncode, ran.stdout), (status, ""))
        self.assertIn(error, ran.stderr)
        self.assertNotIn("    at ", ran.stderr)

    def test_wrong_words(self):
        for error, *words in (
            ("no FILE",),
            ("several files", "a", "b"),
            ("unknown option '--nix'", "--nix", "-"),
            ("unknown option '--minfy'\n(Did you mean --minify?)", "--minfy", "-"),
            ("argument missing", "-", "-o"),
            ("argument missing", "-", "--target"),
            ("argument missing", "-", "--max-line"),
            ("'es6' is invalid. Allowed choices are es3, es5, es2015,", "-", "--target", "es6"),
            ("'foo' is invalid. It takes a whole number from 0 to 4294967295.", "-", "--max-line", "foo", "--minify"),
            ("'--module' cannot be used with option '--script'", "-", "--module", "--script"),
            ("--out-ext goes with --out-dir", "-", "--out-ext", ".min.js"),
            ("-o and --out-dir don't go together", "a", "-o", "b", "--out-dir", "c"),
            ("--watch goes with -o, --out-dir or --write", "a", "--watch"),
            ("`-` stands alone", "-", "--check"),
        ):
            self.refused(2, error, *words, given="a")
            self.refused(2, "usage: scripts/print [OPTIONS] FILE .. (--help tells more)", *words, given="a")

    def test_words_in_other_forms(self):
        with tempfile.TemporaryDirectory() as folder:
            path = write(folder, "-x.js", "/* c */ a = 1_000")
            ran = run("print", "--comments=all", "--target=es5", "--", os.path.relpath(path, TOP))
            self.assertEqual((ran.returncode, ran.stdout, ran.stderr), (0, "/* c */ a = 1000;\n", ""))

    def test_files_that_are_not_there_and_texts_that_are_none(self):
        self.refused(1, "nix.js: no such file", "nix.js")
        self.refused(1, "no file in it ends with .js, .mjs", f"{TOP}/docs")
        self.refused(1, "nix/*.js: no file matches", "nix/*.js")
        self.refused(1, "nix/a.js: no such folder: nix", "-", "-o", "nix/a.js", given="a")
        self.refused(1, "nix: no such program", "-", "--program", "nix", given="a")

    def test_the_line_of_a_syntax_fault_with_a_mark(self):
        self.refused(1, "standard input:2:5: Unexpected token\n  2 | b = )\n    |     ^\n", "-", given="a\nb = )")
        self.refused(1, "\n  1 | \t\ta = )\n    | \t\t    ^\n", "-", given="\t\ta = )")
        long = "a;" * 500
        ran = run("print", "-", given=f"{long}b = ){long}")
        _, line, mark, _ = ran.stderr.split("\n")
        self.assertLess(len(line), 120)
        self.assertEqual(line[mark.index("^")], ")")

    def test_what_helps_with_a_syntax_fault(self):
        with tempfile.TemporaryDirectory() as folder:
            for name, text, hint in (
                ("a.js", "let a: b = <c>d", "it is TypeScript: --ts"),
                ("b.js", "let a: b = <c></c>", "it is TypeScript with JSX: --tsx"),
                ("c.ts", "let a: b = <c></c>", "it is TypeScript with JSX: --tsx"),
                ("d.mjs", "with (a) b", "it is a script: --script"),
                ("e.json", '{"a": [1]}', "it is JSON, and no program"),
                ("f.vue", "<template><a/></template>\n<script>b</script>", "it is a page of markup: only what stands in its scripts is a program"),
                ("g.js", 'import a from "b" with { type: "json" }', "this Babel reads attributes of imports behind `assert`, and not yet behind `with`"),
                ("h.js", "/* @flow */ opaque type a = b", "types of Flow have no place in the tree"),
            ):
                with self.subTest(name=name):
                    self.refused(1, f"\nhint: {hint}", write(folder, name, text))

    def test_what_no_tree_has(self):
        ran = run("print", "-", given='\nimport module foo from "./x";')
        self.assertEqual((ran.returncode, ran.stdout), (1, ""))
        self.assertRegex(ran.stderr, r"^standard input:2:1: ImportDeclaration .*\n  2 \| import module foo from \"\./x\";\n    \| \^\n$")
        with tempfile.TemporaryDirectory() as folder:
            self.refused(1, "a.ts: Babel's parser fails: ", write(folder, "a.ts", "new <any>Foo;"))

    def test_faults_of_the_program(self):
        self.refused(1, "1:1: not well-formed: a name", "-", given="a", *["--program", fake(self, '{"error":{"kind":"not well-formed","path":["body",0],"rule":"a name"}}')])
        self.refused(1, "standard input: refused: memory", "-", given="a", *["--program", fake(self, '{"error":{"kind":"refused","cause":"memory"}}')])
        self.refused(1, "ended by SIGKILL", "-", given="a", *["--program", fake(self, None)])
        self.refused(1, "its answer is no JSON", "-", given="a", *["--program", fake(self, "nix")])

    def test_nothing_is_written_after_a_fault(self):
        with tempfile.TemporaryDirectory() as folder:
            out = os.path.join(folder, "out.js")
            self.refused(1, "Unexpected token", "-", "--map", "-o", out, given="a = )")
            self.assertEqual(os.listdir(folder), [])
            self.refused(1, f"{folder}: it is a folder", "-", "--map", "-o", folder, given="a")
            self.assertEqual(os.listdir(folder), [])

    def test_any_depth(self):
        for text in ("a\n+" + "(" * 500 + "a" + ")" * 500, "a" + " + a" * 3000, "if (a) b; else " * 500 + "c"):
            ran = run("print", "-", "--minify", given=text)
            self.assertEqual((ran.returncode, ran.stderr), (0, ""))


def fake(test, answer):
    """A program that answers a request with this line, or ends without one."""
    folder = tempfile.TemporaryDirectory()
    test.addCleanup(folder.cleanup)
    return write_program(folder.name, "program", "read -r line; kill -9 $$" if answer is None else f"read -r line; echo '{answer}'; cat > /dev/null")


if __name__ == "__main__":
    unittest.main()
