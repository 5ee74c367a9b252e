"""Unit tests of tests/edits/together: which bodies an edit changes, which edits are joined, and what is read in the output of a check. Sources and
outputs are written by hand."""
import contextlib
import io
import pathlib
import re
import tempfile
import unittest
from typing import Dict, Iterable, List, Tuple
from unittest import mock

import bodies
import tool_cases
import verdicts
from verdicts import Kind

CASES = pathlib.Path(__file__).resolve().parents[1] / "cases"
SOURCE = (CASES / "edit_source.txt").read_text(encoding="utf-8")
PASSED = "logic=proved functions=5 sum=1 native=nat"
FAILED = "logic=not-proved"
SAME_REFUSED = (
    "note: src/lib.rt:7:1: it is not proved that what the function ensures holds when it returns (`returns`)\n"
    "fn low::same: no proof: expected answers in ./proofs/same/Answers.antt; `search` did not prove `returns`\n"
)


class Bodies(unittest.TestCase):
    """Which functions an edit changes, if it changes nothing else."""

    def changed(self, old: str, new: str) -> List[str]:
        self.assertEqual(1, SOURCE.count(old))
        return sorted(it.body.function for it in bodies.changed_in("low", "src/lib.rt", SOURCE, SOURCE.replace(old, new)))

    def test_a_body(self) -> None:
        self.assertEqual(["low::same"], self.changed('"}{";\n    n\n', '"}}";\n    n + 1\n'))
        self.assertEqual(["low::long"], self.changed("if n == MOST {", "if n < MOST {"))
        self.assertEqual(["low::PairSize::size"], self.changed("        2\n", "        3\n"))
        self.assertEqual(["low::Pair::first"], self.changed("self.first", "0"))

    def test_a_line_with_the_first_brace(self) -> None:
        self.assertEqual(["low::Pair::first"], self.changed("fn first(&self) -> u16 {", "fn first(&self) -> u16 { let _ = 0;"))
        self.assertEqual(["low::long"], self.changed("    n: u16,\n) -> u16 {", "    n: u16,\n) -> u16 { return 1;"))
        self.assertEqual([], self.changed("fn first(&self) -> u16 {", "fn first(&self) -> u32 {"))

    def test_two_bodies(self) -> None:
        text = SOURCE.replace("        2\n", "        3\n").replace("self.first", "0")
        found = bodies.changed_in("low", "src/lib.rt", SOURCE, text)
        self.assertEqual({"low::PairSize::size", "low::Pair::first"}, {it.body.function for it in found})

    def test_what_is_no_body(self) -> None:
        for old, new in (
            ("MOST: u16 = 9", "MOST: u16 = 8"),
            ("result ≡ n", "result ≡ 0"),
            ("#[inline(always)]", "#[inline(never)]"),
            ("/// The same", "/// Another"),
            ("    n: u16,", "    n: u32,"),
            ("fn size(&self) -> u16;", "fn size(&self) -> u32;"),
            ("n == 0", "n == 1"),
            ("        7\n", "        6\n"),
            ("            8\n", "            9\n"),
            ("fn empty() {}", "fn empty() { }"),
        ):
            self.assertEqual([], self.changed(old, new), old)

    def test_a_body_and_something_else(self) -> None:
        text = SOURCE.replace("self.first", "0").replace("MOST: u16 = 9", "MOST: u16 = 8")
        self.assertEqual(frozenset(), bodies.changed_in("low", "src/lib.rt", SOURCE, text))

    def test_a_line_that_ends_the_body_or_begins_an_item(self) -> None:
        self.assertEqual([], self.changed("self.first", "0 } fn other() -> u16 { 1"))
        self.assertEqual([], self.changed("self.first", "0 } const OTHER: [u8; 1] = { [0]"))
        self.assertEqual([], self.changed("self.first", "fn other() {} 0"))
        self.assertEqual([], self.changed("self.first", "/* 0"))
        self.assertEqual(["low::Pair::first"], self.changed("self.first", "u16::from(b'}')"))

    def test_a_file_of_proofs_has_no_bodies(self) -> None:
        self.assertEqual(frozenset(), bodies.places_of(pathlib.Path("low"), {"proofs/Lib.antt": ""}))

    def test_modules(self) -> None:
        self.assertEqual(["low", "low", "low::part", "low::part::inner"], [bodies.module_of("low", f"src/{it}.rt") for it in ("lib", "main", "part", "part/inner")])


class Verdicts(unittest.TestCase):
    """What is read in the output of a check."""

    def place(self, function: str) -> bodies.Place:
        return next(bodies.Place("src/lib.rt", it) for it in bodies.bodies_in("low", "src/lib.rt", SOURCE) if it.function == function)

    def verdict(self, function: str, printed: str, status: int) -> verdicts.Verdict:
        check = verdicts.Check(printed, status)
        return verdicts.verdict_on_any(check) if function == "any" else verdicts.verdict_on(check, self.place(function))

    def test_an_open_goal(self) -> None:
        self.assertEqual((Kind.REFUSED, "low::same, `returns`"), self.verdict("low::same", SAME_REFUSED + FAILED, 1))

    def test_outputs(self) -> None:
        cases = re.findall(r"(?m)^== (.*) \| (.*) \| (.*) \| (.*)\n((?:(?!==|\n).*\n)*)", (CASES / "verdict_cases.txt").read_text(encoding="utf-8"))
        self.assertEqual(39, len(cases))
        for title, function, status, wanted, text in cases:
            printed = text.replace("%SAME\n", SAME_REFUSED).replace("%FAILED", FAILED).replace("%PASSED", PASSED)
            with self.subTest(title, printed=printed):
                self.assertEqual(Kind[wanted], self.verdict(function, printed, int(status)).kind)


SMALL = (tool_cases.TEXTS / "small.txt").read_text(encoding="utf-8")


class Prover:
    """Says what the prover would say of `same` and `other` with such bodies, and notes the functions that each check is to prove."""

    def __init__(self) -> None:
        self.asked: List[List[str]] = []
        self.kept: List[pathlib.Path] = []

    def line(self, name: str, sign: str, body: str) -> str:
        """What is said of one function."""
        if name == "other" and "n - 7" in body and "n + 1" in body:
            return "fn low::other: no proof: it calls `low::same`, which is not proved"
        if f"n {sign} 1" in body or "n + 3" in body or name == "other" and "n - 7" in body:
            return f"fn low::{name}: no proof: expected answers in ./proofs/{name}/Answers.antt; `search` did not prove `returns`"
        if f"n {sign} 2" in body:
            return f"./proofs/{name}/Answers.antt:6:5: error: `returns`: `c` has no field `now`\nfn low::{name}: not proved"
        return f"fn low::{name}: proved"

    def check(self, crate: str, texts: Dict[str, str], functions: Iterable[str], kept: pathlib.Path) -> verdicts.Check:
        body, names = texts["src/lib.rt"], sorted(functions)
        self.asked.append(names)
        self.kept += [kept] if kept.is_dir() else []
        shown = [(name, sign) for name, sign in (("same", "+"), ("other", "-")) if not names or f"low::{name}" in names or "n + 3" in body]
        lines = [self.line(name, sign, body) for name, sign in shown]
        proved = sum(line.endswith(": proved") for line in lines)
        status = int(proved < len(lines))
        last = f"only={len(lines)} proved={proved}" if names else FAILED if status else PASSED
        return verdicts.Check("\n".join([*lines, *([] if " 9" in body else [last])]) + "\n", status)


class Together(unittest.TestCase):
    """Whole runs in a small tree, over a prover of two functions."""

    def setUp(self) -> None:
        room = tempfile.TemporaryDirectory()
        self.addCleanup(room.cleanup)
        self.top = pathlib.Path(room.name)
        self.tool = tool_cases.command("tests/edits/together")
        self.own, self.copy, self.prover = self.top / "own", self.top / "copy", Prover()
        for tree in (self.own, self.copy):
            (tree / "crates/low/src").mkdir(parents=True)
            (tree / "crates/low/src/lib.rt").write_text(SMALL, encoding="utf-8")

    def write(self, changes: Dict[str, Tuple[str, str]]) -> None:
        """Writes these edits of the crate: of each what it replaces, and by what."""
        folder = self.own / "crates/low/must-fail"
        folder.mkdir(exist_ok=True)
        for name, (old, new) in changes.items():
            (folder / f"{name}.edit").write_text(f"file: src/lib.rt\nold: {old}\nnew: {new}\n", encoding="utf-8")

    def plan(self, changes: Dict[str, Tuple[str, str]]) -> List[List[str]]:
        """The names of the edits that each check tries."""
        self.write(changes)
        with mock.patch.object(self.tool, "ROOT", self.own):
            return [[it.name[: -len(".edit")] for it in joined] for rounds in self.tool.rounds_in(self.copy) for joined in rounds]

    def run_all(self, changes: Dict[str, Tuple[str, str]]) -> Tuple[int, List[str]]:
        """Tries these edits: the status, and what is printed."""
        self.write(changes)
        said = io.StringIO()
        with mock.patch.object(self.tool, "ROOT", self.own), contextlib.redirect_stdout(said):
            return self.tool.try_all(self.prover, self.copy), said.getvalue().splitlines()

    def test_edits_of_different_functions_are_joined(self) -> None:
        changes = {"a": ("n + 0", "n + 1"), "b": ("n + 0", "n + 1 + 0"), "c": ("n - 0", "n - 1")}
        self.assertEqual([["a", "c"], ["b"]], self.plan(changes))
        self.run_all(changes)
        self.assertEqual([["low::other", "low::same"], ["low::same"]], sorted(self.prover.asked))

    def test_edits_of_different_lines_of_a_function_are_not_joined(self) -> None:
        self.assertEqual([["a"], ["b"]], self.plan({"a": ("let _ = n", "let _ = 0"), "b": ("n - 0", "n - 1")}))

    def test_a_goal_of_a_function_that_no_edit_changes(self) -> None:
        status, said = self.run_all({"a": ("n + 0", "n + 3")})
        self.assertEqual((1, "0 passed, 1 failed"), (status, said[-1]))
        self.assertIn("together: low/a.edit: NOT JUDGED: a goal of low::other is open, which no edit of the round changes", said)

    def test_an_edit_of_something_else_is_tried_by_itself(self) -> None:
        self.assertEqual([["a", "c"], ["b"]], self.plan({"a": ("n + 0", "n + 1"), "b": ("fn other(n: u16)", "fn other(n: u32)"), "c": ("n - 0", "n - 1")}))

    def test_an_edit_that_another_one_makes_unfit_is_not_joined(self) -> None:
        self.assertEqual([["a"], ["b"]], self.plan({"a": ("n + 0", "n + 1 + (n - 0)"), "b": ("n - 0", "n - 1")}))

    def test_all_are_refused(self) -> None:
        status, said = self.run_all({"a": ("n + 0", "n + 1"), "b": ("n + 0", "n + 1 + 0"), "c": ("n - 0", "n - 1")})
        self.assertEqual((0, "3 passed, 0 failed"), (status, said[-1]))
        self.assertIn("together: low/c.edit: refused: low::other, `returns`", said)

    def test_a_right_body_beside_a_wrong_one(self) -> None:
        status, said = self.run_all({"a": ("n + 0", "n + 1"), "b": ("n - 0", "n - 0 // the same")})
        self.assertEqual((1, "1 passed, 1 failed"), (status, said[-1]))
        self.assertIn("together: low/b.edit: NOT REFUSED: low::other is proved", said)

    def test_a_missing_name(self) -> None:
        status, said = self.run_all({"a": ("n + 0", "n + 1"), "b": ("n - 0", "n - 2")})
        self.assertEqual((1, "1 passed, 1 failed"), (status, said[-1]))
        self.assertTrue(any(line.startswith("together: low/b.edit: REFUSED ONLY BECAUSE A NAME IS MISSING") for line in said))

    def test_an_output_that_is_cut(self) -> None:
        self.assertEqual((1, "0 passed, 1 failed"), self.cut(self.run_all({"a": ("n + 0", "n + 1 + 9")})))

    def test_an_edit_of_something_else_is_checked_whole(self) -> None:
        status, said = self.run_all({"a": ("fn other(n: u16)", "fn other(n: u32)"), "b": ("n + 0", "n + 1")})
        self.assertEqual((1, "1 passed, 1 failed"), (status, said[-1]))
        self.assertEqual([[], ["low::same"]], sorted(self.prover.asked))

    def test_what_is_not_refused_is_tried_again_alone(self) -> None:
        self.run_all({"a": ("n + 0", "n + 1"), "b": ("n - 0", "n - 0 // the same")})
        self.assertEqual([["low::other", "low::same"], ["low::other"], []], self.prover.asked)

    def test_a_function_that_calls_a_wrong_one_is_tried_again_alone(self) -> None:
        status, said = self.run_all({"a": ("n + 0", "n + 1"), "b": ("n - 0", "n - 7")})
        self.assertEqual((0, "2 passed, 0 failed"), (status, said[-1]))
        self.assertEqual([["low::other", "low::same"], ["low::other"]], self.prover.asked)

    def test_checks_of_a_crate_share_a_folder_that_is_gone_afterwards(self) -> None:
        self.run_all({"a": ("n + 0", "n + 1"), "b": ("n + 0", "n + 1 + 0"), "c": ("n - 0", "n - 1")})
        self.assertEqual(2, len(self.prover.kept))
        self.assertEqual(1, len(set(self.prover.kept)))
        self.assertFalse(self.prover.kept[0].exists())

    def test_methods_by_their_type(self) -> None:
        self.assertEqual(["Pair::first", "low::pairs::same", "low::same"], [self.tool.short_name(it) for it in ("low::pairs::Pair::first", "low::pairs::same", "low::same")])

    @staticmethod
    def cut(found: Tuple[int, List[str]]) -> Tuple[int, str]:
        """The status and the last line."""
        return found[0], found[1][-1]
