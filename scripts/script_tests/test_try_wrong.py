"""Wrong bodies: which are tried together, what a check says of them, and a crate with some."""

import os
import re
import shutil
import subprocess
import sys
import tempfile
import unittest

from runs import SCRIPTS, write

sys.path += [f"{SCRIPTS}/{folder}" for folder in ("unproved", "wrong_bodies")]
import edits  # noqa: E402
import verdicts  # noqa: E402
from impls import function_at, implemented  # noqa: E402

SOURCE = """//! Some functions.
#![tactic(auto)]

ghost use Rattle.std.specs.Prelude.{◌≡◌, true, false};

/// Gives it back.
pub fn same(a: u32) -> u32
    ensures { result ≡ a }
{
    a
}

/// Gives it back, by another.
pub fn by_another(a: u32) -> u32
    ensures { result ≡ a }
{
    same(a)
}

/// Says no.
pub fn says_no(a: u32) -> bool
    ensures { result ≡ false }
{
    let _ = a; false
}

/// Says yes.
pub fn says_yes(a: u32) -> bool
    ensures { result ≡ true }
{
    !says_no(a)
}
"""
EDITS = {
    "gives_nothing": "old:     a\nnew:     a & 0",
    "gives_zero": "old: same(a)\nnew: same(0)",
    "means_the_same": "old: let _ = a; false\nnew: let _ = a; !true",
    "nowhere": "old: nix\nnew: nux",
    "of_another_type": "old: !says_no(a)\nnew: !says_no(true)",
    "says_no": "old: !says_no(a)\nnew: says_no(a)",
}


def write_crate(top):
    """A repository with one crate and this script."""
    for folder in ("command_line", "unproved", "wrong_bodies"):
        shutil.copytree(f"{SCRIPTS}/{folder}", f"{top}/scripts/{folder}", ignore=shutil.ignore_patterns("__pycache__"))
    script = f"{top}/scripts/dev/try-wrong"
    os.makedirs(os.path.dirname(script), exist_ok=True)
    shutil.copy(f"{SCRIPTS}/dev/try-wrong", script)
    for folder in ("src", "wrong"):
        os.makedirs(f"{top}/crates/tiny/{folder}")
    write(top, "crates.txt", "tiny:\n")
    write(f"{top}/crates/tiny/src", "lib.rt", SOURCE)
    for name, text in EDITS.items():
        write(f"{top}/crates/tiny/wrong", f"{name}.edit", f"file: src/lib.rt\n{text}\n")


def edit_of(old, new, folder):
    """An edit of this source, by a text of it and what stands in its place."""
    path = write(folder, "some.edit", f"file: src/lib.rt\nold: {old}\nnew: {new}\n")
    os.makedirs(f"{folder}/src", exist_ok=True)
    write(f"{folder}/src", "lib.rt", SOURCE)
    return edits.read(path, folder, lambda *_: ({"src/lib.rt": SOURCE.replace(old, new)}, None))[0]


class Rounds(unittest.TestCase):
    def test_edits_of_different_functions_stand_together(self):
        with tempfile.TemporaryDirectory() as folder:
            given = [edit_of(*pair, folder) for pair in (("same(a)", "same(0)"), ("!says_no(a)", "a == 0"), ("same(a)", "same(1)"), ("Says no", "Nix"))]
            named = {place: edits.names_of(place, [], {})[0] for edit in given for place in edit.places}
            self.assertEqual([named[edit.places[0]] for edit in given], ["by_another", "says_yes", "by_another", ""])
            # the third is of the first's function, the last of none
            self.assertEqual(edits.rounds_of(given, named), [given[:2], [given[2]], [given[3]]])
            both = edits.texts_of(given[:2], folder)["src/lib.rt"]
            self.assertEqual(both, SOURCE.replace("same(a)", "same(0)").replace("!says_no(a)", "a == 0"))
            line = both.split("\n").index("    a == 0") + 1
            self.assertEqual(edits.changer(given[:2], "src/lib.rt", line), given[1])
            self.assertIsNone(edits.changer(given[:2], "src/lib.rt", 1))

    def test_a_method_is_named_by_the_module_of_its_type(self):
        place = edits.Place("basic_impl::texts", "end_line", "Lines", ())
        known = ["basic_impl::Lines::end_line", "semicolon::Lines::end_line", "basic_impl::texts::end"]
        self.assertEqual(edits.names_of(place, known, {"Lines": ["basic_impl"]}), ["basic_impl::Lines::end_line", "basic_impl::texts"])
        # (the type's module is not above that of its `impl`, and nothing is known yet)
        place = edits.Place("forms", "simple", "Verdict", ())
        names = edits.names_of(place, [], {"Verdict": ["verdicts"]})
        self.assertEqual(names, ["verdicts::Verdict::simple", "forms::Verdict::simple", "forms"])
        # (what an `impl` of a trait holds is named by the module of the `impl`)
        place = edits.Place("calls", "write_line", "LinesWriteJs", ())
        self.assertEqual(edits.names_of(place, [], {"Lines": ["basic_impl"]}), ["calls::LinesWriteJs::write_line", "calls"])
        place = edits.Place("errors", "from", "ErrorFrom", ("AllocError",))
        self.assertEqual(edits.names_of(place, ["errors::ErrorFromAllocError::from"], {}), ["errors::ErrorFromAllocError::from", "errors"])
        self.assertEqual(edits.names_of(place, [], {}), ["errors::ErrorFrom::from", "errors::ErrorFromAllocError::from", "errors"])
        place = edits.Place("links", *function_at("impl Shows<AsStmt, Stmt<AnyNode>> for AnyNode {\n    fn shown() {\n", 50))
        self.assertEqual(edits.names_of(place, ["links::AnyNodeShowsAsStmtStmtAnyNode::shown"], {})[0], "links::AnyNodeShowsAsStmtStmtAnyNode::shown")


    def test_types_that_an_impl_is_for(self):
        of = {
            "impl<T: EmitAt + Spanned> Node for T {": "AnyNode",
            "impl<W: WriteJs> WriteJs for &mut W {": "RefMutWriteJs",
            "impl<'a, T: EmitAt> EmitAt for &'a T {": "RefEmitAt",
            "impl<T: EmitAt> EmitAt for Box<T> {": "BoxEmitAt",
            "impl<K: Fn(u8) -> u8, N> Emits<N> for Link<K, N> {": "LinkEmits",
            "impl<'a, W: Write> Lines<'a, W> {": "Lines",
            "pub fn implied() {": None,
        }
        self.assertEqual({line: implemented(line) for line in of}, of)

    def test_a_definition_is_at_no_place(self):
        with tempfile.TemporaryDirectory() as folder:
            os.makedirs(f"{folder}/src")
            os.makedirs(f"{folder}/specs")
            write(f"{folder}/src", "lib.rt", SOURCE)
            write(f"{folder}/specs", "One.antt", "one = 1\n")
            texts = {"specs/One.antt": "one = 2\n", "src/lib.rt": SOURCE.replace("same(a)", "same(0)")}
            definition = "file: specs/One.antt\nold: one = 1\nnew: one = 2\n"
            both = write(folder, "both.edit", f"{definition}file: src/lib.rt\nold: same(a)\nnew: same(0)\n")
            edit = edits.read(both, folder, lambda *_: (texts, None))[0]
            self.assertEqual([place.function for place in edit.places], ["by_another"])
            self.assertFalse(edit.of_bodies)
            alone = write(folder, "alone.edit", definition)
            self.assertIsNone(edits.read(alone, folder, lambda *_: ({"specs/One.antt": "one = 2\n"}, None))[0])

    def test_where_types_are_declared(self):
        with tempfile.TemporaryDirectory() as folder:
            os.makedirs(f"{folder}/src/a")
            write(f"{folder}/src", "lib.rt", "pub struct Top;\n")
            write(f"{folder}/src/a", "mod.rt", "pub(crate) enum Way<T> {\n    Top,\n}\n")
            write(f"{folder}/src/a", "b.rt", "trait Way {\n    type Top;\n}\ntype Short = Top;\n")
            self.assertEqual(edits.declared_in(folder), {"Top": [""], "Way": ["a::b", "a"], "Short": ["a::b"]})


class Verdicts(unittest.TestCase):
    def test_a_goal_of_its_own(self):
        said = "fn t::a: no proof: expected answers in ./x; `search` did not prove `returns` and `then`; it calls `t::b`, which is not proved\n"
        self.assertEqual(verdicts.of(["a"], said, False), (True, "refused at a (returns, then)"))

    def test_only_what_it_calls_is_refused(self):
        said = "fn t::a: no proof: it calls `t::b`, which is not proved\nfn t::b: no proof: `search` did not prove `returns`\n"
        self.assertIsNone(verdicts.of(["a"], said, False))

    def test_a_proof_names_what_is_gone(self):
        said = "./proofs/a/Answers.antt:3:5: error: `returns`: `c` has no field `sum`\nfn t::a: not proved\nonly=1 proved=0\n"
        well, text = verdicts.of(["a"], said, True)
        self.assertFalse(well)
        self.assertIn("only because a proof names what it took away: ./proofs/a/Answers.antt:3:5", text)

    def test_an_answer_is_not_one(self):
        said = "./proofs/a/Answers.antt:3:5: error: `returns`: expected `1 ≡ 2`, found `1 ≡ 1`\nfn t::a: not proved\nonly=1 proved=0\n"
        self.assertEqual(verdicts.of(["a"], said, True), (True, "refused at a (the answer of returns)"))

    def test_a_closure(self):
        said = "fn t::m::a: proved\nfn t::m::fn::a::map+FnMut::call_mut: no proof: `search` did not prove `returns`\n"
        self.assertEqual(verdicts.of(["m::a"], said, False), (True, "refused at m::fn::a::map+FnMut::call_mut (returns)"))

    def test_no_measure(self):
        said = "fn t::a: no proof: expected a measure in ./proofs/a/Invariants.antt\nonly=1 proved=0\n"
        self.assertFalse(verdicts.of(["a"], said, True)[0])


class Tried(unittest.TestCase):
    def test_a_crate(self):
        with tempfile.TemporaryDirectory() as top:
            write_crate(top)
            ran = subprocess.run([f"{top}/scripts/dev/try-wrong", "tiny"], capture_output=True, text=True, check=False, cwd=top)
            said = dict(re.findall(r"(?m)^tiny/(\w+)\.edit: (.*)$", ran.stdout))
            self.assertEqual(said.pop("gives_nothing"), "refused at same (returns)")
            self.assertEqual(said.pop("gives_zero"), "refused at by_another (returns)")
            self.assertEqual(said.pop("says_no"), "refused at says_yes (returns)")
            self.assertEqual(said.pop("means_the_same"), "PROVED: says_no")
            self.assertRegex(said.pop("of_another_type"), r"^BAD EDIT: src/lib\.rt:\d+:\d+: error\[mismatched-types\]")
            self.assertRegex(said.pop("nowhere"), "^BAD EDIT: an 'old:' text is in src/lib.rt 0 times")
            self.assertEqual(said, {})
            self.assertRegex(ran.stdout, r"\ntiny: 3 wrong bodies refused, 3 failed, in \d+ minutes, \d+ of a processor\n3 wrong bodies refused, 3 failed, in \d+ minutes, \d+ of a processor\n\Z")
            self.assertEqual(ran.returncode, 1)


if __name__ == "__main__":
    unittest.main()
