"""scripts/tree-of --estree, with the ASTs that acorn and Babel make of files; and its options for parentheses."""

import json
import os
import tempfile
import unittest

from runs import JQUERY, LODASH, ecmagen, node, run, write

FEWEST = ["--without-parentheses", "--parenthesize"]
TEXT = r"""
'use it';
a?.b.c(d)?.[e]; (a?.b).c; (a?.b)(c); (a?.b)`c`; a.b?.c; new A; new A(1); new (a())(); 1n + 0x1fn; -1; 1_000; .5; 1e400; '\x41'; "é\u2028"; /x[/]/gi;
({get a() { return 1 }, set a(b) {}, b() {}, async *c() {}, c, [d]: 1, 'e-f': 2, 3: 4, ...e, f: function () {}, async g() {}});
class B extends (C, D) { #x = 1n; static y; static #z() {} get z() {} static set z(a) {} constructor() { super(); } m() { return #x in this && super.m; } static {} [a]; 'b' = 1 }
for (const [a,, b = 2, ...c] of d); for (x in y); for (var i = 0, j; i < 1; i++, j--) continue; for (;;) break; (async () => { for await (x of y); });
var {x, y: z = 1, [k]: l, ...w} = v; [a, {b, c: d = 1}, ...e] = f; ({g} = h); `a${b}c${d}`; (a + b) * c; a + (b * c); (a, b); a ?? (b || c);
async (a, {b}, [c] = [], ...d) => { await import('m'); }; x => ({}); () => {}; l: do { if (a) b; else if (c) d; else { } } while (0)
function* f() { yield; yield a; yield* b; new.target; } try { throw a } catch { } finally { } try { } catch ({e}) { } switch (a) { case 1: b; default: c }
if (a) function g() {} debugger; ; void 0; typeof a; !b; delete c.d; a = b += c **= d; a ? b : c ? d : e; with (a) b; this.x; null; true
"""
JSX = "a = <b.c d='&quot;' e={f} {...g} h:i>j &amp;lt; {k}{/* l */}<></><m/></b.c>"
TYPES = "let a: B<C> = d as e; interface F { g(h?: number): void } type I = J | K[]; enum L { M = 1 } function n<O>(this: P): asserts this is Q {}"


class Asts(unittest.TestCase):
    def setUp(self):
        folder = tempfile.TemporaryDirectory()
        self.addCleanup(folder.cleanup)
        self.folder = folder.name

    def texts(self, path, whose):
        """The text of a file's tree, and that of its AST, both minified with as few parentheses as may be."""
        read = node("asts.js", whose, path)
        self.assertEqual(read.stderr, "")
        of_file, of_ast = run("tree-of", *FEWEST, path), run("tree-of", *FEWEST, "--estree", "-", given=read.stdout)
        self.assertEqual((of_file.returncode, of_ast.returncode, of_ast.stderr), (0, 0, of_file.stderr))
        printed = [ecmagen(ran.stdout, "--minify", "--any") for ran in (of_file, of_ast)]
        self.assertEqual([ran.stderr for ran in printed], ["", ""])
        return [ran.stdout for ran in printed]

    def test_small_texts(self):
        for name, text, whose in (("a.js", TEXT, ("acorn", "babel", "estree")), ("a.jsx", JSX, ("babel", "estree")), ("a.ts", TYPES, ("babel",))):
            path = write(self.folder, name, text)
            for one in whose:
                with self.subTest(file=name, ast=one):
                    of_file, of_ast = self.texts(path, one)
                    self.assertGreater(len(of_file), 60)
                    self.assertEqual(of_ast, of_file)

    def test_files(self):
        for path in (JQUERY,):
            for one in ("acorn", "babel", "estree"):
                with self.subTest(file=path, ast=one):
                    of_file, of_ast = self.texts(path, one)
                    self.assertGreater(len(of_file), 80_000)
                    self.assertEqual(of_ast, of_file)

    def made(self, expression, *words):
        program = {"type": "Program", "sourceType": "script", "body": [{"type": "ExpressionStatement", "expression": expression}]}
        ran = run("tree-of", "--estree", *words, "-", given=json.dumps(program))
        self.assertEqual(ran.returncode, 0, ran.stderr)
        return ecmagen(ran.stdout)

    def test_values_count_where_a_spelling_was_left_behind(self):
        for expression, text in (
            ({"type": "Literal", "value": "new", "raw": "'old'"}, '"new";\n'),
            ({"type": "Literal", "value": "a", "raw": "'\\x61'"}, "'\\x61';\n"),
            ({"type": "StringLiteral", "value": "a", "extra": {"raw": "alert(1)"}}, '"a";\n'),
            ({"type": "Literal", "value": 2, "raw": "1"}, "2;\n"),
            ({"type": "Literal", "value": -2.5}, "-2.5;\n"),
            ({"type": "Literal", "value": None, "bigint": "12", "raw": "12n"}, "12n;\n"),
            ({"type": "JSXFragment", "openingFragment": {"type": "JSXOpeningFragment"}, "closingFragment": {"type": "JSXClosingFragment"},
              "children": [{"type": "JSXText", "value": "a & {b}<", "raw": "a"}]}, "<>a &amp; &#123;b&#125;&lt;</>;\n"),
        ):  # fmt: skip
            with self.subTest(expression=expression):
                ran = self.made(expression)
                self.assertEqual((ran.stderr, ran.stdout), ("", text))

    def test_parentheses_that_an_ast_has_no_nodes_for(self):
        name = lambda text: {"type": "Identifier", "name": text}
        of = lambda op, left, right: {"type": "BinaryExpression", "operator": op, "left": left, "right": right}
        product = of("*", of("+", name("a"), name("b")), name("c"))
        self.assertEqual(self.made(product).stdout, "a + b * c;\n")
        self.assertEqual(self.made(product, "--parenthesize").stdout, "(a + b) * c;\n")

    def test_positions_are_those_of_the_ast(self):
        path = write(self.folder, "a.js", "a + b")
        tree = json.loads(run("tree-of", "--estree", "-", given=node("asts.js", "acorn", path).stdout).stdout)
        self.assertEqual(tree["Script"]["body"][0]["Expr"]["expr"]["Bin"]["right"]["Ident"]["span"], {"lo": 5, "hi": 6})
        self.assertIn('"lo":0', run("tree-of", "--estree", "--nowhere", "-", given=node("asts.js", "acorn", path).stdout).stdout)

    def test_what_is_no_ast(self):
        for text, error in (
            ("{", "no JSON"), ("[]", "no AST of a program"), ('{"type":"Program","body":[{"type":"Nix"}]}', "Nix is no type of node"),
            ('{"type":"Program","body":[{"type":"ExpressionStatement"}]}', "`expression` of ExpressionStatement has no node"),
            ('{"type":"Program","body":[{"type":"VariableDeclaration","kind":"var"}]}', "`declarations` of VariableDeclaration has no list"),
        ):  # fmt: skip
            with self.subTest(text=text):
                ran = run("tree-of", "--estree", "-", given=text)
                self.assertEqual((ran.returncode, ran.stdout), (1, ""))
                self.assertRegex(ran.stderr, f"^standard input: {error}")
                self.assertLess(ran.stderr.count("\n"), 2)


class Parentheses(unittest.TestCase):
    def printed(self, text, *words):
        return ecmagen(run("tree-of", *words, "-", given=text).stdout).stdout

    def test_without_parentheses(self):
        self.assertEqual(self.printed("(a + b) * (c); ((d)) = (e.f) = g; [(h)] = [(i)]", "--without-parentheses"), "a + b * c;\nd = e.f = g;\n[h] = [\n    i\n];\n")

    def test_parentheses_where_the_syntax_asks_for_them(self):
        self.assertEqual(self.printed("(a + b) * (c); ((d)) = (e.f) = g", *FEWEST), "(a + b) * c;\nd = e.f = g;\n")


if __name__ == "__main__":
    unittest.main()
