"""Comments in texts of scripts/print: none is lost, and each has the lines that it has in its source."""

import tempfile
import unittest

from runs import JQUERY, TOP, node, run, write

# a source whose comments stand where the grammar of lists has no place for them, and the text that it gets
PLACED = (
    ("const o = {\n  a: 1, // one\n  b: 2, // two\n  // last\n};\n", "const o = {\n    a: 1, // one\n    b: 2 // two\n    // last\n};\n"),
    ("class A {\n  x = 1; // x\n  m() {} // m\n  // end\n}\n", "class A {\n    x = 1; // x\n    m() {} // m\n    // end\n}\n"),
    ("enum E {\n  A, // one\n  B, // two\n}\n", "enum E {\n    A, // one\n    // two\n    B\n}\n"),
    ("for (;;) {\n  /* spin */\n}\n", "for(;;){\n    /* spin */\n}\n"),
    ("if (a) {\n  // none\n} else {\n  // yes\n  b();\n}\n", "if (a) {\n    // none\n} else {\n    // yes\n    b();\n}\n"),
    ("a(/* none */);\n", "/* none */ a();\n"),
    ("function f() { // head\n  a(); // a\n  // end\n}\n", "function f() { // head\n    a(); // a\n    // end\n}\n"),
    ("function f() { /* none */ }\n", "function f() { /* none */ }\n"),
    ("switch (a) {\n  // one\n  case 1: // case\n    b();\n  default:\n    // none\n}\n", "switch(a){\n    // one\n    case 1: // case\n        b();\n    default:\n    // none\n}\n"),
    ("/**\n * Doc.\n */\nexport function f() {}\n", "/**\n * Doc.\n */\nexport function f() {}\n"),
    ("class A {\n\t/**\n\t * Doc.\n\t *   More.\n\t */\n\tm() {}\n}\n", "class A {\n    /**\n     * Doc.\n     *   More.\n     */\n    m() {}\n}\n"),
    ("{\n      /* a\nb\n         c */\n  d;\n}\n", "{\n    /* a\n    b\n       c */\n    d;\n}"),
    ("a; /* one */ b;\n", "a; /* one */\nb;\n"),
    ("if (a) { /* one */ b; }\n/* two */ c;\n", "if (a) {\n    /* one */ b;\n}\n/* two */ c;\n"),
    ("f(a, // one\n  b); // two\n// end", "f(a, // one\nb); // two\n// end\n"),
    ("x = <a>{/* child */}</a>;\n", "/* child */ x = <a>{}</a>;\n"),
    ("// only", "// only\n"),
)  # fmt: skip


class Comments(unittest.TestCase):
    def setUp(self):
        folder = tempfile.TemporaryDirectory()
        self.addCleanup(folder.cleanup)
        self.folder = folder.name

    def printed(self, *words, given):
        ran = run("print", "-", *words, given=given)
        self.assertEqual((ran.returncode, ran.stderr), (0, ""))
        return ran.stdout

    def test_places_and_lines(self):
        for at, (source, _) in enumerate(PLACED):
            write(self.folder, f"{at}.ts{'x' if '</' in source else ''}", source)
        ran = run("print", self.folder, "--comments", "--write")
        self.assertEqual((ran.returncode, ran.stdout), (0, ""))
        self.assertEqual(ran.stderr, f"{len(PLACED)} of {len(PLACED)} files, {sum(one != other for one, other in PLACED)} written\n")
        for at, (source, wanted) in enumerate(PLACED):
            with self.subTest(source=source), open(f"{self.folder}/{at}.ts{'x' if '</' in source else ''}", encoding="utf-8") as file:
                self.assertEqual(file.read(), wanted)
        ran = run("print", self.folder, "--check")
        self.assertEqual((ran.returncode, ran.stdout), (0, ""))

    def test_none_of_jquery_is_lost(self):
        for words in ((), ("--minify",)):
            out = f"{self.folder}/out.js"
            ran = run("print", JQUERY, "--comments", "-o", out, *words)
            self.assertEqual((ran.returncode, ran.stderr), (0, ""))
            told = node("same_comments.js", JQUERY, out)
            self.assertEqual((told.stdout, told.stderr), ("1779 comments\n", ""))

    def test_between_each_two_tokens(self):
        for words in ((), ("--minify",)):
            told = node("comment_gaps.js", f"{TOP}/out/ecmaprint", *words)
            self.assertRegex(told.stdout, r"^\d{3,} texts\n$")
            self.assertEqual(told.stderr, "")

    def test_legal_ones_alone(self):
        given = "/*! one */\n// two\na; // @license three\n/* four\n * @preserve\n */ b;\n/** five */ c;"
        text = self.printed("--comments", "some", given=given)
        self.assertEqual(text, "/*! one */\na; // @license three\n/* four\n * @preserve\n */ b;\nc;\n")
        self.assertEqual(self.printed("--comments=some", "--minify", given="/*! one */ a; // two"), "/*! one */a;")
        self.assertEqual(self.printed("--comments", "none", given="/*! one */ a;"), "a;\n")

    def test_minified_they_go_before_their_statements(self):
        text = self.printed("--comments", "--minify", given="a = { b: 1, /* one */ };c(/* two */)")
        self.assertEqual(text, "a={/* one */b:1};/* two */c();")

    def test_positions_follow(self):
        given = "class A {\n  /**\n   * Doc.\n   */\n  x = 1; // x\n  y() {}\n}\n"
        ran = run("print", "-", "--comments", "--positions", given=given)
        lines = ran.stdout.split("\n")
        for told in ran.stderr.strip().split("\n"):
            position, line, column = map(int, told.split(" "))
            at = given[position - 1 :]
            if at[0] in "AxyC1/":
                self.assertEqual(lines[line][column], at[0], told)


if __name__ == "__main__":
    unittest.main()
