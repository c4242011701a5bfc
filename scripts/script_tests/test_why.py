"""scripts/why, on trees that `ecmagen` refuses, and on those that it prints."""

import json
import os
import tempfile
import unittest

from runs import ecmagen, run, write

NOWHERE = {"lo": 0, "hi": 0}


def name(text, lo=0, hi=0):
    return {"Ident": {"span": {"lo": lo, "hi": hi}, "sym": text, "optional": False}}


def script(expr):
    """The tree of an expression as a statement."""
    return {"Script": {"span": NOWHERE, "body": [{"Expr": {"span": NOWHERE, "expr": expr}}], "shebang": None}}


def in_block(tree):
    """The same of its statements in a block: three levels deeper."""
    tree["Script"]["body"] = [{"Block": {"span": NOWHERE, "stmts": tree["Script"]["body"]}}]
    return tree


def in_parentheses(expr, count):
    for _ in range(count):
        expr = {"Paren": {"span": NOWHERE, "expr": expr}}
    return expr


SUM = {"Bin": {"span": NOWHERE, "op": "Add", "left": name("a", 1, 2), "right": name("b c", 5, 8)}}


class Why(unittest.TestCase):
    def told(self, text, *words):
        """What is told of a file with this text, without its name, and the status. `ecmagen` refuses just what something is told of."""
        with tempfile.TemporaryDirectory() as folder:
            path = write(folder, "a.json", text)
            ran = run("why", path, *words)
        self.assertEqual(ran.stderr, "")
        self.assertEqual(ran.returncode, ecmagen(text, *words).returncode)
        self.assertEqual(ran.returncode == 0, ran.stdout == "")
        return ran.stdout.replace(f"{path}:", "", 1)

    def test_a_node_whose_rule_is_broken(self):
        wanted = " not well-formed: a name holds a character that no name may\npath: body, 0, expr, right\nnode: Ident, from 5 to 8\n"
        self.assertEqual(self.told(json.dumps(script(SUM))), wanted)
        self.assertEqual(self.told(json.dumps(script(SUM)), "--any"), "")

    def test_the_program_itself(self):
        tree = script(name("a"))
        tree["Script"]["shebang"] = "a\nb"
        wanted = " not well-formed: a hashbang has several lines\npath: (the program)\nnode: Script, nowhere\n"
        self.assertEqual(self.told(json.dumps(tree)), wanted)

    def test_the_place_of_a_fault_is_that_in_the_file(self):
        text = '{"Script":\r\n {"span":{"lo":0,"hi":0},\n  "body":[]}}'
        self.assertEqual(self.told(text), "3:12: bad tree: missing field `shebang`\n")
        text = '{"Script":\n{"\u00e9\u540d":0,"span":7}}'
        self.assertEqual(self.told(text), "2:16: bad tree: invalid type\n")

    def test_what_the_options_do_not_allow(self):
        text = json.dumps(script(name("\U00010400")))
        self.assertEqual(self.told(text, "--ascii-only", "--target", "es5"), " refused: name out of target\n")
        self.assertEqual(self.told(text, "--ascii-only"), "")

    def test_trees_that_nest_126_levels_deep(self):
        self.assertEqual(self.told(json.dumps(script(in_parentheses(name("a"), 59)))), "")

    def test_trees_that_nest_127_levels_deep(self):
        deep = lambda expr: json.dumps(in_block(script(in_parentheses(expr, 58))))
        self.assertEqual(self.told(deep(name("a"))), "")
        told = self.told(deep(name("b c")))
        self.assertTrue(told.startswith(" not well-formed: a name holds a character that no name may\npath: body, 0, stmts, 0, expr, "))
        self.assertEqual(self.told(deep({"Ident": {"sym": {}}})), " bad tree\n")

    def test_trees_that_nest_too_deep(self):
        text = json.dumps(script(in_parentheses(name("a"), 60)))
        place = text.index('{"lo"', text.index('"Ident"')) + 1
        self.assertEqual(self.told(text), f"1:{place}: bad tree: it nests 128 levels deep, and here past the 127 that are read\n")

    def test_a_flat_form(self):
        flat = {"nodes": [{"Expr": name("b c")}, {"Program": script(0)}]}
        with tempfile.TemporaryDirectory() as folder:
            path = write(folder, "a.json", json.dumps(flat))
            wanted = "not well-formed: a name holds a character that no name may\npath: body, 0, expr\n"
            self.assertEqual(run("why", path).stdout, f"{path}: {wanted}")
            self.assertEqual(run("why", "-", given=json.dumps(flat)).stdout, f"standard input: {wanted}")

    def test_what_is_no_json(self):
        with tempfile.TemporaryDirectory() as folder:
            path = write(folder, "a.json", '{"Script":\n  nix}')
            ran = run("why", path)
            self.assertEqual((ran.returncode, ran.stdout, ran.stderr), (1, "", f"{path}:2:3: no JSON: Expecting value\n"))
            self.assertEqual(run("why", path, "--program", os.path.join(folder, "b")).returncode, 1)


if __name__ == "__main__":
    unittest.main()
