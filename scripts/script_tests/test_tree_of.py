"""scripts/tree-of: its warnings, flat forms, and what becomes of texts of JSX."""

import json
import os
import tempfile
import unittest

from runs import ecmagen, node, run, text_of, write

JSX = r"""
a = <b c="&amp;lt; &quot;" d='"&nbsp;'>&amp;lt; &lt;b&gt; &nbsp;&#32;&#10;  &copy; &notathing; é {c}</b>;
b = <>&#123;{'a'}&#125; &#x1F600; a &amp;&amp; b
   lines   of text
</>;
"""


class Warnings(unittest.TestCase):
    def warned(self, text, *words):
        ran = run("tree-of", *words, "-", given=text)
        self.assertEqual(ran.returncode, 0)
        json.loads(ran.stdout)
        return [line for line in ran.stderr.split("\n") if line]

    def test_depth(self):
        deep = "a;\nb;" + "(" * 70 + "c" + ")" * 70
        for words in ([], ["--nowhere"]):
            (line,) = self.warned(deep, *words)
            self.assertRegex(line, r"^standard input:2: warning: the JSON nests 1\d\d levels deep, and here past the 127 ")

    def test_depth_is_that_of_the_program(self):
        # the program takes exactly what isn't warned of
        printed = {}
        for count in range(50, 65):
            ran = run("tree-of", "-", given="!" * count + "a")
            printed[count] = ecmagen(ran.stdout).returncode == 0
            self.assertEqual(printed[count], ran.stderr == "", count)
        self.assertEqual(set(printed.values()), {True, False})

    def test_surrogates(self):
        strings = [r"'\\ud800'", r"'a\\uDfFf'", r"'\\u{dABc}'", r"'use \\ud800'"]
        for string in strings:
            (line,) = self.warned("a;\n\nb(%s)" % string)
            self.assertIn("standard input:3: warning: this string spells a surrogate", line)
            self.assertEqual(ecmagen(run("tree-of", "-", given=string).stdout).stderr, "not well-formed\n")
        for string in (r"'\ud800'", r"'\\ud7ff'", r"'\\u{1d800}'", r"'\\u d800'", r"`\\ud800`", r"/\\ud800/", "'\U0001F600'"):
            self.assertEqual(self.warned(string), [])
            self.assertEqual(ecmagen(run("tree-of", "-", given=string).stdout).returncode, 0, string)


class Flat(unittest.TestCase):
    def numbers(self, tree, flat, nodes):
        """The numbers of a flat node in order, each with those of the node that it leads to before it: put back they make the tree."""
        if isinstance(flat, int) and not isinstance(tree, int):
            ((_, node),) = nodes[flat].items()
            return [*self.numbers(tree, node, nodes), flat]
        self.assertEqual(type(tree), type(flat))
        if isinstance(tree, dict):
            self.assertEqual(list(tree), list(flat))
            return [number for name in tree for number in self.numbers(tree[name], flat[name], nodes)]
        if isinstance(tree, list):
            self.assertEqual(len(tree), len(flat))
            return [number for pair in zip(tree, flat) for number in self.numbers(*pair, nodes)]
        self.assertEqual(tree, flat)
        return []

    def flat(self, *words, given=""):
        ran = run("tree-of", "--flat", *words, given=given)
        self.assertEqual((ran.returncode, ran.stderr), (0, ""))
        return json.loads(ran.stdout)["nodes"]

    def test_links_are_numbers_of_earlier_nodes(self):
        texts = {
            "-": "a = -(b + c) ? function d() { return {e: [f, ...g]} } : `h${i}`; x: for (var [j, {k}] of l) m ??= (await, n?.o)",
            "a.jsx": JSX,
            "a.ts": "class A<B extends C> extends D<E> { @f g: H[] = <I>j } type K = {[l in M]: N} | [o?: P]; namespace Q { enum R { s } }",
        }
        with tempfile.TemporaryDirectory() as folder:
            for name, text in texts.items():
                path = name if name == "-" else write(folder, name, text)
                tree = json.loads(run("tree-of", path, given=text).stdout)
                *nodes, last = self.flat(path, given=text)
                self.assertGreater(len(nodes), 8)
                self.assertEqual(self.numbers(tree, last["Program"], nodes), list(range(len(nodes))))

    def test_depth(self):
        nodes = self.flat("-", given="!" * 2000 + "a")
        self.assertEqual(nodes[0], {"Expr": {"Ident": {"span": {"lo": 2001, "hi": 2002}, "sym": "a", "optional": False}}})
        self.assertEqual(nodes[2000]["Expr"]["Unary"]["arg"], 1999)
        self.assertEqual(len(nodes), 2002)


class Jsx(unittest.TestCase):
    def meaning(self, path):
        read = node("jsx_texts.js", path)
        self.assertEqual(read.stderr, "")
        return read.stdout

    def test_texts_keep_their_meaning(self):
        with tempfile.TemporaryDirectory() as folder:
            path, out = write(folder, "a.jsx", JSX), os.path.join(folder, "b.jsx")
            wanted = self.meaning(path)
            self.assertIn('"&lt; <b>', wanted)
            for words in ([], ["--minify"], ["--ascii-only"]):
                self.assertEqual(run("print", path, "-o", out, *words).returncode, 0)
                self.assertEqual(self.meaning(out), wanted)
                self.assertIn("&amp;lt;", text_of(out))

    def test_characters_that_have_no_place_between_tags(self):
        with tempfile.TemporaryDirectory() as folder:
            path, out = write(folder, "a.jsx", "a = <b>c > d } e</b>"), os.path.join(folder, "b.jsx")
            self.assertEqual(run("print", path, "-o", out).returncode, 0)
            self.assertEqual(self.meaning(out), '"c > d } e"\n')
            self.assertEqual(text_of(out), "a = <b>c &gt; d &#125; e</b>;\n")


class Kinds(unittest.TestCase):
    def test_modules_and_scripts(self):
        self.assertIn("Script", json.loads(run("tree-of", "-", given="a").stdout))
        self.assertIn("Module", json.loads(run("tree-of", "--module", "-", given="a").stdout))
        self.assertIn("Module", json.loads(run("tree-of", "-", given="export {}").stdout))

    def test_nowhere(self):
        told = run("tree-of", "--nowhere", "-", given="a + b(c)").stdout
        self.assertEqual(set(part.split("}")[0] for part in told.split('"span":')[1:]), {'{"lo":0,"hi":0'})

    def test_bytes_that_are_no_text(self):
        with tempfile.TemporaryDirectory() as folder:
            path = os.path.join(folder, "a.js")
            with open(path, "wb") as file:
                file.write(b"a;\n'\xff'")
            self.assertEqual(run("tree-of", path).stderr, f"{path}:2: byte 5 is not UTF-8\n")

    def test_what_no_tree_has_is_a_line(self):
        for words, text, told in (
            ((), "for (using x = y;;) ;", "standard input:1:6: VariableDeclaration is not printed here: `using` has no place\n"),
            (("--ts",), "class A { constructor?() {} }", "standard input:1:11: ClassMethod can't be printed with its `optional` here\n"),
            (("--ts",), "new <any>Foo;", "standard input: Babel's parser fails: Cannot read properties of undefined (reading 'type')\n"),
        ):
            ran = run("tree-of", *words, "-", given=text)
            self.assertEqual((ran.returncode, ran.stdout, ran.stderr), (1, "", told))


if __name__ == "__main__":
    unittest.main()
