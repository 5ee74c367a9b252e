"""Unit tests of the commands in tools/, commands/, build/ and tools/bench/. The expected values are worked out by hand."""
import contextlib
import importlib.machinery
import importlib.util
import io
import os
import pathlib
import re
import subprocess
import sys
import tempfile
import unittest
from typing import Any, List, Tuple
from unittest import mock

import arithmetic_cases
import command_lines
import antt
import declared
import definitions
import made_files
import runnable
import sessions
import shell_cases
import side_by_side
import tally
import unclaused
import wanted_lines

ROOT = pathlib.Path(__file__).resolve().parents[2]
TEXTS = ROOT / "tests/unit/texts"
sys.path.append(str(ROOT / "commands"))

import quiet_end  # noqa: E402
from served import image, paging  # noqa: E402
import whole  # noqa: E402


def command(path: str) -> Any:
    """A command of this repository, as a module: its file has no suffix."""
    loader = importlib.machinery.SourceFileLoader(re.sub(r"\W", "_", path), str(ROOT / path))
    spec = importlib.util.spec_from_loader(loader.name, loader)
    assert spec
    module = importlib.util.module_from_spec(spec)
    loader.exec_module(module)
    return module


class RunDefinitions(unittest.TestCase):
    """Definitions as Python functions."""

    TEXT = (TEXTS / "definitions.txt").read_text(encoding="utf-8")

    def setUp(self) -> None:
        library = definitions.Library.__new__(definitions.Library)
        library.modules, library.places = {}, {}
        library.add("cells", "Tiny", self.TEXT)
        self.defined = runnable.Runnable(library)

    def value(self, name: str, *given: object) -> object:
        return self.defined.function("cells.specs.Tiny", name)(*given)

    def test_functions(self) -> None:
        self.assertEqual([self.value("total", b"\1\2\3"), self.value("total", (300, 5)), self.value("down", 3)], [6, 305, b"\2\1\0"])

    def test_what_is_not_needed_is_not_computed(self) -> None:
        self.assertEqual([self.value("digits_if", 10), self.value("digits_if", 0)], [3, 7])

    def test_statements(self) -> None:
        self.assertEqual([self.value("IsRising", given) for given in (b"\x09\1\2", b"\2\1", b"\1")], [True, False, False])
        self.assertEqual([self.value("AllSmall", n) for n in (8, 9)], [True, False])

    def test_what_is_unknown_is_refused_by_its_place(self) -> None:
        with self.assertRaisesRegex(antt.Unknown, r"^crates/cells/specs/Tiny.antt:1: strange: std.specs.Prelude.unheard_of is not in"):
            self.value("strange", 1)


class QuietEnds(unittest.TestCase):
    """Commands that print a list, whose reader ends first: nothing is printed on standard error."""

    COMMANDS = (["tests/sources/check-english", "--words"], ["tools/bare-functions"], ["commands/command-line", "--help"], ["commands/bring", "--help"])

    def test_a_reader_that_ends_first_costs_no_message(self) -> None:
        for words in self.COMMANDS:
            with self.subTest(command=" ".join(words)):
                read, write = os.pipe()
                os.close(read)
                with os.fdopen(write, "wb") as output:
                    done = subprocess.run([ROOT / words[0], *words[1:]], stdout=output, stderr=subprocess.PIPE, cwd=ROOT, check=False)
                self.assertEqual((141, b""), (done.returncode, done.stderr))

    def test_a_list_that_is_read_ends_with_the_status_of_the_command(self) -> None:
        self.assertEqual(7, quiet_end.status_of(lambda: 7))


class WholeFiles(unittest.TestCase):
    def test_a_file_is_replaced_with_its_mode_and_a_new_one_has_that_of_another(self) -> None:
        with tempfile.TemporaryDirectory() as name:
            old, new, link = (pathlib.Path(name) / it for it in ("old", "new", "link"))
            old.write_bytes(b"1")
            old.chmod(0o640)
            link.symlink_to(old)
            with mock.patch("os.fsync", side_effect=lambda number: self.assertEqual(0o640, os.fstat(number).st_mode & 0o777)):
                whole.replace(link, b"2")
                whole.replace(new, b"3", str(old))
            self.assertEqual((b"2", b"3", 0o640), (old.read_bytes(), new.read_bytes(), new.stat().st_mode & 0o777))
            self.assertTrue(link.is_symlink())
            with mock.patch("os.replace", side_effect=OSError), self.assertRaises(OSError):
                whole.replace(old, b"4")
            self.assertEqual((b"2", ["link", "new", "old"]), (old.read_bytes(), sorted(os.listdir(name))))


class MadeFiles(unittest.TestCase):
    def test_a_file_that_differs_is_named_or_written_and_no_other(self) -> None:
        with tempfile.TemporaryDirectory() as name, mock.patch.object(made_files, "ROOT", pathlib.Path(name)):
            same, other, new = (pathlib.Path(name, it) for it in ("same", "other", "new"))
            for path in (same, other):
                path.write_text("1")
            files, as_it_was = {same: "1", other: "2", new: "3"}, same.stat().st_mtime_ns
            wanted = [f"{it} is not up to date: run it" for it in ("other", "new")]
            self.assertEqual((wanted, "1", False), (made_files.bring(files, False, "it"), other.read_text(), new.exists()))
            self.assertEqual(([], "2", "3", as_it_was), (made_files.bring(files, True, "it"), other.read_text(), new.read_text(), same.stat().st_mtime_ns))


class SideBySide(unittest.TestCase):
    """Commands that run side by side are all run, and shown as a whole."""

    @staticmethod
    def shown(commands: List[List[str]], at_once: int = 0) -> Tuple[List[int], str]:
        """The statuses of these commands, and what is shown."""
        shown = io.StringIO()
        with contextlib.redirect_stdout(shown):
            ended = side_by_side.run_all(commands, at_once)
        return [it.status for it in ended], shown.getvalue()

    def test_all_are_run_and_what_failed_is_named(self) -> None:
        statuses, shown = self.shown([["true"], ["sh", "-c", "echo why; exit 3"], ["no-such-command"]])
        self.assertEqual([0, 3, 127], statuses)
        self.assertIn("test: sh -c 'echo why; exit 3'\nwhy\ntest: FAILED: sh -c 'echo why; exit 3'\n", shown)
        self.assertIn("test: FAILED: no-such-command\n", shown)

    def test_what_passes_is_shown_in_its_order(self) -> None:
        self.assertEqual(([0, 0], "test: echo one\none\ntest: echo two\ntwo\n"), self.shown([["echo", "one"], ["echo", "two"]], 1))


class TestSuite(unittest.TestCase):
    """The list of checks, and what the suite refuses."""

    def test_each_check_is_a_file(self) -> None:
        suite = command("test")
        self.assertEqual([], [" ".join(it.words) for it in suite.listed() if not os.access(ROOT / it.words[0], os.X_OK)])

    def test_each_check_in_tests_is_listed(self) -> None:
        named = {it.words[0] for it in command("test").listed()} | {"tests/sources/check-needs"}
        self.assertEqual([], sorted(str(it.relative_to(ROOT)) for it in ROOT.glob("tests/*/check-*") if str(it.relative_to(ROOT)) not in named))

    def test_refusals_name_what_is_wrong(self) -> None:
        for words, said in (
            (["--sources", "none"], "there is no check none here"),
            (["--program", "/none"], "there is no program /none"),
            (["served"], "name checks after --sources"),
            (["--program", str(ROOT / "test"), "layout"], "there is no check layout here"),
        ):
            with self.subTest(words=words):
                done = subprocess.run([ROOT / "test", *words], stdout=subprocess.PIPE, stderr=subprocess.STDOUT, text=True, check=False)
                self.assertEqual(2, done.returncode)
                self.assertIn(said, done.stdout)

    def test_one_check_is_counted(self) -> None:
        done = subprocess.run([ROOT / "test", "--sources", "version"], stdout=subprocess.PIPE, stderr=subprocess.STDOUT, text=True, check=False)
        self.assertEqual((0, "1 passed, 0 failed"), (done.returncode, done.stdout.splitlines()[-1]))


class Declared(unittest.TestCase):
    """The enums and structs of a source, and those that definitions name."""

    SOURCE = (TEXTS / "declared.txt").read_text(encoding="utf-8")

    def test_variants_and_public_fields(self) -> None:
        self.assertEqual(
            [
                declared.Item("low", "Answer", "The answer to a request.", ("Key(u8)", "Line { bytes: &'a [u8], returned: bool }", "End = 3")),
                declared.Item("low", "Place", "Where a block is.", ("slot: usize", "block: Option<u16>")),
            ],
            declared.items_in("low", self.SOURCE),
        )

    def test_names_of_definitions(self) -> None:
        names = [
            "low.specs.declared.act.Answer.TheVariants.Key",
            "low.specs.declared.act.Answer.Answer",
            "low.specs.declared.Memory.Memory",
            "mid.specs.declared.system.TheConstants.DP",
            "std.specs.declared.alloc.Global.Global",
            "low.specs.Bytes.cell",
        ]
        self.assertEqual([("low", "Answer"), ("low", "Memory"), ("mid", "DP")], declared.cited(names))


class Tallies(unittest.TestCase):
    """What is wrong is counted and reported after the name of the check; what is right is only counted."""

    def test_counts_and_reports(self) -> None:
        tried = tally.Tally("check-x", most=4)
        with contextlib.redirect_stderr(io.StringIO()) as said:
            results = [
                tried.must(True, "one"),
                tried.same("two", 2, 2),
                tried.holds("three", "b", "abc"),
                tried.must(False, "four"),
                tried.same("five", "abcdef", 5),
                tried.holds("six", "x", "abc"),
            ]
        self.assertEqual(([True] * 3 + [False] * 3, 3, 3, 1), (results, tried.right, tried.wrong, tried.status))
        self.assertEqual("check-x: four\ncheck-x: five: wanted 'abc.., got 5\ncheck-x: six: wanted 'x' in 'abc..\n", said.getvalue())

    def test_nothing_wrong(self) -> None:
        self.assertEqual(0, tally.Tally("check-x").status)


class Refusals(unittest.TestCase):
    def test_counts_edits_and_those_that_lack_a_name(self) -> None:
        count, found = command("tests/edits/refusals").missing_names(
            [
                "rt: must-fail a.edit: refused, as it must be: the goal of f is open",
                "rt: must-fail b.edit: refused, as it must be: `z` is not in scope",
                "rt: must-fail c.edit: refused, as it must be (only because a name is missing): x",
                "rt: cells proved",
            ]
        )
        self.assertEqual((count, [line.split(":")[0] for line in found]), (3, ["b.edit", "c.edit"]))


class GateTimes(unittest.TestCase):
    def test_the_table_has_the_greatest_first_and_the_sums(self) -> None:
        used = {("1", ("cells", "proof")): 60.0, ("2", ("cells", "edits")): 30.0, ("3", ("see", "tests")): 120.0}
        lines = command("tools/gate-times").table_of(used, 300.0, 120.0)
        self.assertEqual(
            [line.split() for line in lines[2:]],
            [["see", "0.0", "2.0", "0.0", "0.0", "0"], ["cells", "1.0", "0.0", "0.0", "0.5", "1"], ["all", "1.0", "2.0", "0.0", "0.5", "1"], ["besides:", "1.5"]],
        )
        self.assertTrue(lines[0].startswith("gate: 2 minutes, 5 of processor time"))

    def test_a_process_that_has_ended_has_no_times(self) -> None:
        module = command("tools/gate-times")
        self.assertIsNone(module.stat_of(2**22 + 1))
        self.assertEqual(module.stat_of(os.getpid())[0], os.getppid())
        self.assertIsNone(module.kind_of(os.getpid()))


class Edits(unittest.TestCase):
    def misfits(self, source: str, edit: str) -> List[str]:
        module = command("tests/sources/check-edits")
        with tempfile.TemporaryDirectory() as name:
            crate = pathlib.Path(name, "crates/low")
            for part in ("src", "must-fail"):
                (crate / part).mkdir(parents=True)
            (crate / "src/lib.rt").write_text(source)
            (crate / "must-fail/one.edit").write_text(edit)
            with mock.patch.object(module, "ROOT", pathlib.Path(name)):
                return [line.partition("edit: ")[2] for line in module.misfits(crate / "must-fail/one.edit")]

    def test_an_edit_that_fits(self) -> None:
        self.assertEqual(self.misfits("a < b\n", "file: src/lib.rt\nold: a < b\nnew: a <= b\n"), [])

    def test_a_text_that_is_twice_or_not_in_the_file(self) -> None:
        self.assertEqual(self.misfits("a\na\n", "file: src/lib.rt\nold: a\nnew: b\n"), ["found 2 times in lib.rt: a"])
        self.assertEqual(self.misfits("a\n", "file: src/lib.rt\nold: c\nnew: b\n"), ["found 0 times in lib.rt: c"])

    def test_a_pair_sees_what_the_pairs_before_it_did(self) -> None:
        self.assertEqual(self.misfits("a\n", "file: src/lib.rt\nold: a\nnew: b\nold: b\nnew: c\n"), [])

    def test_a_line_that_is_no_field(self) -> None:
        self.assertEqual(self.misfits("a\n", "file: src/lib.rt\nodd: a\n"), ["not a field: odd: a"])


class Unnamed(unittest.TestCase):
    def found(self, text: str) -> List[str]:
        return command("tests/sources/check-definitions").UNNAMED.findall(text)

    def test_numbers_of_what_has_a_name(self) -> None:
        for number in (
            "cell m 16",
            "put_cell (written m ws) 20",
            "PutCell 20",
            "control_code s.memory 8",
            "runtime m 18",
            "rt 5",
            "row 149",
            "creates t w name false 2",
            "fault s 7",
            "needs t 8",
            "cell m word == 1",
        ):
            self.assertEqual(self.found(f"x = {number} y"), [number])

    def test_other_numbers(self) -> None:
        for text in ("cell m (a + 2)", "cell m DP", "cell m STATE == 0", "cell m BASE ≡ 10", "put_cell m STATE 65535", "head_of t 16", "wrap (w + 2)"):
            self.assertEqual(self.found(text), [])


class Audit(unittest.TestCase):
    SOURCE = (TEXTS / "audited.txt").read_text(encoding="utf-8")

    def test_public_functions_and_methods_are_found_with_their_clauses(self) -> None:
        module = command("tools/audit")
        found = list(module.calls_in(self.SOURCE, "pairs"))
        self.assertEqual([call.title for call in found], ["pairs::free", "pairs::Pair::first"])
        self.assertEqual([name for name, _ in found[0].clauses()], ["done", "gone"])
        self.assertEqual(module.named(found[0].clauses(), module.REFUSING), "`gone`")
        self.assertEqual((found[0].answers(), found[1].answers()), ("Option", ""))

    def test_imports_are_read_with_their_crates(self) -> None:
        module = command("tools/audit")
        text = "use low::{one, two};\npub use high::part::three;\n"
        names = set(module.imported(text))
        self.assertLessEqual({("low", "one"), ("low", "two"), ("high", "three")}, names)


class BareFunctions(unittest.TestCase):
    @staticmethod
    def bare(text: str) -> List[object]:
        return [(it.name, it.lines) for it in unclaused.functions_in("low", "a.rt", text) if it.is_bare]

    def test_only_functions_without_a_clause_are_bare(self) -> None:
        text = "fn bare() {\n    one();\n}\n\nfn kept()\n    ensures { true }\n{\n}\n\nimpl Clone for X {\n    fn clone(&self) -> X {\n        X\n    }\n}\n"
        self.assertEqual(self.bare(text), [("bare", 3)])

    def test_a_method_that_a_trait_declares_has_no_body(self) -> None:
        text = "pub trait T {\n    fn size(&self) -> u8;\n\n    fn kept(&self)\n        ensures { true };\n}\n\nfn last() {\n    one();\n}\n"
        self.assertEqual(self.bare(text), [("size", 1), ("last", 3)])

    def test_those_that_do_more_than_their_clause_says(self) -> None:
        kept = "    ensures { IfErr result (λ status. 0 < status) }\n{\n"
        text = (
            "use std::fs;\n\nfn reads() -> u8\n    ensures { result ≡ 1 }\n{\n    fs::read(1)\n}\n\nfn above() -> u8\n    ensures { result ≡ 1 }\n{\n    reads()\n}\n\n"
            f"fn silent() -> Result<u8, u8>\n{kept}    Ok(1)\n}}\n\nfn good() -> u8\n    ensures {{ result ≡ 1 }}\n{{\n    1\n}}\n"
        )
        functions = list(unclaused.functions_in("low", "a.rt", text))
        self.assertEqual([it.name for it in functions if it.is_silent], ["silent"])
        self.assertEqual([it.name for it in unclaused.calling(functions)], ["reads", "above"])


class Sessions(unittest.TestCase):
    def test_steps_have_what_is_typed_and_what_is_shown(self) -> None:
        steps = sessions.steps_of("A page.\n```\n$ ./forth\n> 1 .\n1  ok\n> KEY\n>>> x\n>> a line\nshown\n```\nMore.\n")
        self.assertEqual(
            [(it.typed, it.at_shell, it.answers, it.shown) for it in steps], [("./forth", True, "", []), ("1 .", False, "", ["1  ok"]), ("KEY", False, "xa line\n", ["shown"])]
        )

    def test_the_output_is_divided_at_what_was_typed(self) -> None:
        steps = sessions.steps_of("```\n> 1 .\n> 2 .\n> BYE\n$ ls\n```\n")
        self.assertEqual([it.shown for it in steps], [["ok"], ["ok"], [], []])
        steps = sessions.steps_of("```\n> 1 .\n> 2 .\n```\n")
        self.assertEqual(sessions.parted(steps, "1 . 1  ok\n2 . 2  ok\n"), [["1  ok"], ["2  ok"]])

    def test_a_page_shows_lines_of_an_example(self) -> None:
        said = io.StringIO()
        with tempfile.TemporaryDirectory() as room, contextlib.redirect_stderr(said):
            self.assertEqual(0, sessions.lay_files("page", "```main.fs\nREQUIRE later.fs\nREQUIRE commands.fs\n```\n", room))
            self.assertEqual(1, sessions.lay_files("page", "```main.fs\nREQUIRE commands.fs\nREQUIRE later.fs\n```\n", room))
            self.assertEqual(0, sessions.lay_files("page", "```own.fs\n5 .\n```\n", room))
            self.assertEqual(["own.fs"], os.listdir(room))
        self.assertIn("examples/logger/main.fs does not have", said.getvalue())

    def test_a_difference_is_reported(self) -> None:
        step = sessions.Step("1 .", False)
        step.shown = ["1  ok"]
        said = io.StringIO()
        with contextlib.redirect_stderr(said):
            self.assertEqual((sessions.differs("page", step, ["1  ok "]), sessions.differs("page", step, ["2"])), (0, 1))
        self.assertIn("page: 1 .", said.getvalue())


class Commands(unittest.TestCase):
    """Cases that are commands of a shell, as cram has them."""

    def setUp(self) -> None:
        self.steps = shell_cases.steps_of(b"A title.\n\n  $ echo a\n  > false\n  a\n  [1]\n\n  $ printf b\n  c\n")

    def test_steps(self) -> None:
        self.assertEqual(self.steps, [(3, [b"echo a", b"false"], [b"a", b"[1]"]), (8, [b"printf b"], [b"c"])])

    def test_lines(self) -> None:
        for wanted, got in [(b"a", b"a"), (rb"a\x20 (esc)", b"a "), (b"a+ (re)", b"aa"), (b"*a? (glob)", b"xab"), (rb"\* (glob)", b"*"), (b" (esc)", b"")]:
            self.assertTrue(wanted_lines.matches(wanted, got), wanted)
        for wanted, got in [(b"a", b"a "), (rb"a\t (esc)", b"a "), (b"a (re)", b"aa"), (b"a? (glob)", b"a"), (rb"\* (glob)", b"x"), (b"a", b"a (no-eol)")]:
            self.assertFalse(wanted_lines.matches(wanted, got), wanted)

    def test_printed(self) -> None:
        mark = shell_cases.SALT
        printed = [[b"a", b"[1]"], [b"b (no-eol)"]]
        self.assertEqual(shell_cases.printed_by(self.steps, mark + b" 0\na\n" + mark + b" 1\nb" + mark + b" 0\n"), printed)
        self.assertEqual(shell_cases.printed_by(self.steps, mark + b" 0\na\n"), [[b"a", b"[?]"], [b"was not run"]])
        self.assertEqual([wanted_lines.difference(step.wanted, got)[-2:] for step, got in zip(self.steps, printed)], [[], ["-c", "+b (no-eol)"]])


class Paging(unittest.TestCase):
    """The maker of the tools' screens: none of them can be full."""

    @staticmethod
    def parts(path: str, text: str) -> List[paging.Screen]:
        """The parts of a text whose headings are its lines that begin with one %."""
        headings = [(int(line[9:]), number) for number, line in enumerate(text.splitlines(), 1) if line.startswith("% ")]
        return paging.parts_of(path, text, headings)

    FULL = "% screen 90\n( Kilns )\n" + "".join(f"( the kiln {number} )\n: KILN{number} {number} . ;\n" for number in range(7)) + "( more )\n"
    ADDED = ": SAW ( -- )\n  9 . ;\n"

    def test_what_has_no_room_runs_on(self) -> None:
        screens = paging.paged([*self.parts("a.txt", self.FULL + self.ADDED), *self.parts("b.txt", "% screen 91\n( Saws )\n: BLADE 8 . ;\n")])
        self.assertEqual([(90, "a.txt", 15), (91, "a.txt", 4), (92, "b.txt", 2)], [(it.number, it.path, len(it.lines)) for it in screens])
        self.assertEqual([(2, "( Kilns )"), (17, "( more )"), (18, ": SAW ( -- )"), (19, "  9 . ;")], screens[1].lines)

    def test_what_has_room_stays(self) -> None:
        text = "% screen 90\n( Kilns )\n" + 15 * ": KILN 7 . ;\n" + "% screen 93\n( Saws )\n"
        self.assertEqual(text, paging.text_of(paging.paged(self.parts("a.txt", text))))

    def test_a_word_of_two_lines_on_each_screen_of_the_tools(self) -> None:
        texts = [(path, image.read(path)) for path in image.TEXTS]
        more = [(path, re.sub(r"(?m)^(% screen \d+\n.*\n)", rf"\1{self.ADDED}", text)) for path, text in texts]
        screens, before = (paging.paged([part for path, text in these for part in self.parts(path, text)]) for these in (more, texts))
        self.assertEqual(16, max(len(it.lines) for it in screens))
        self.assertEqual(len({it.number for it in screens}), len(screens))
        self.assertGreater(len(screens), len(before))
        for path, text in more:
            lines = {line for it in screens for line in it.lines if it.path == path}
            self.assertEqual([line for line in text.splitlines() if not line.startswith("% ")], [line for _, line in sorted(lines)])

    def test_a_refusal_has_a_place(self) -> None:
        screens = paging.paged(self.parts("a.txt", self.FULL + self.ADDED))
        self.assertEqual("a.txt:4", paging.place_of(screens, "screen 90 offset 130: Unknown"))
        self.assertEqual("a.txt:19", paging.place_of(screens, "screen 91 offset 194: Unknown"))
        self.assertEqual("a.txt:3", paging.place_of(screens, "line 3: LongLine"))
        self.assertEqual("a.txt:18", paging.place_of(screens, "line 20: LongLine"))
        self.assertEqual("the tools", paging.place_of(screens, "out of memory"))


class CommandLines(unittest.TestCase):
    def read(self, *words: str) -> command_lines.Asked:
        with mock.patch.object(sys, "argv", ["check-it", *words]), contextlib.redirect_stderr(io.StringIO()):
            return command_lines.read("What it does.\n\nMore.", command_lines.Count("CASES", "how many", 40))

    def test_the_count_has_a_default(self) -> None:
        self.assertEqual(self.read(__file__), command_lines.Asked(pathlib.Path(__file__).resolve(), 40))
        self.assertEqual(self.read(__file__, "7").count, 7)

    def test_wrong_words_end_with_status_2(self) -> None:
        wrong: Tuple[Tuple[str, ...], ...] = ((), ("/no/such/program",), (__file__, "x"), (__file__, "1", "2"))
        for words in wrong:
            with self.assertRaises(SystemExit) as ended:
                self.read(*words)
            self.assertEqual(ended.exception.code, 2, words)


class CommandLine(unittest.TestCase):
    """What ./forth83 answers without a program; tests/sources/check-help PROGRAM compares the same with the program."""

    HELP = (
        "== forth83\nUsage: forth83 <COMMAND>\n== forth83 cut\nCut it\n\nUsage: forth83 cut [OPTIONS] <FROM> [TO]\n\nArguments:\n"
        "  <FROM>  The first, 1 to 9\n  [TO]    Where to\n\nOptions:\n      --most <N>  At most\n      --dry       No\n  -h, --help      Help\n"
    )

    def answer(self, *words: str) -> object:
        module = command("commands/command-line")
        try:
            return module.answer(list(words), module.parts_of(self.HELP))[0]
        except module.Refusal as refusal:
            return str(refusal).partition("\n")[0]

    def test_right_words_need_the_program(self) -> None:
        for words in (["cut", "1"], ["cut", "--dry", "9", "x"], ["cut", "--most=3", "2"], ["cut", "--most", "3", "--", "2", "--dry"]):
            self.assertEqual(self.answer(*words), 100, words)

    def test_help_needs_none(self) -> None:
        self.assertEqual([self.answer(), self.answer("--help"), self.answer("help", "cut"), self.answer("cut", "--dry", "-h")], [2, 0, 0, 0])

    def test_wrong_words_are_refused(self) -> None:
        self.assertEqual(self.answer("paste"), "unrecognized subcommand 'paste'")
        self.assertEqual(self.answer("cut", "--wet", "1"), "unexpected argument '--wet' found")
        self.assertEqual(self.answer("cut", "1", "2", "3"), "unexpected argument '3' found")
        self.assertEqual(self.answer("cut", "0"), "invalid value '0' for '<FROM>': 0 is not in 1..=9")
        self.assertEqual(self.answer("cut", "--most", "x", "1"), "invalid value 'x' for '--most <N>': invalid digit found in string")
        self.assertEqual(self.answer("cut", "--most"), "a value is required for '--most <N>' but none was supplied")
        self.assertEqual(self.answer("cut"), "the following required arguments were not provided:")


class Arithmetic(unittest.TestCase):
    def test_numbers_at_the_edges(self) -> None:
        self.assertEqual([arithmetic_cases.wrap(it, 16) for it in (32767, 32768, -32769, 65536)], [32767, -32768, 32767, 0])
        self.assertEqual([arithmetic_cases.floored(7, -2), arithmetic_cases.floored(-32768, -1), arithmetic_cases.floored(1, 0)], [(-1, -4), None, None])
        self.assertEqual([arithmetic_cases.unsigned_division(65535, 1), arithmetic_cases.unsigned_division(65536, 1)], [(0, 65535), None])
        self.assertEqual([arithmetic_cases.halves(65537), arithmetic_cases.halves(-1)], [(1, 1), (65535, 65535)])

    def test_a_loop_ends_where_it_crosses_its_limit(self) -> None:
        self.assertEqual([arithmetic_cases.loop_goes_on(1, 3, 1), arithmetic_cases.loop_goes_on(2, 3, 1)], [2, None])
        self.assertEqual([arithmetic_cases.loop_goes_on(3, 3, -1), arithmetic_cases.loop_goes_on(0, 3, 5)], [None, None])


class Prove(unittest.TestCase):
    def test_a_line_of_rt_that_means_a_failure(self) -> None:
        failure = command("build/prove").FAILURE
        for line in ("error: no such thing", "error[E1]: x", "fn a::b: not proved", "NOT PROVED"):
            self.assertTrue(failure.search(line), line)
        for line in ("statements cells: modules loaded=1 checked=0", "fn errors::b: proved"):
            self.assertFalse(failure.search(line), line)

    def test_options_that_exclude_each_other(self) -> None:
        module = command("build/prove")
        self.assertTrue(module.arguments(["--status"]).status)
        with self.assertRaises(SystemExit), contextlib.redirect_stderr(io.StringIO()):
            module.arguments(["--status", "--meanwhile"])


class Editors(unittest.TestCase):
    def test_a_word_is_matched_between_blanks_in_any_case(self) -> None:
        pattern = command("tools/make-editors").alone(re.escape("2DUP"))
        self.assertTrue(re.search(pattern, "1 2dup ."))
        self.assertFalse(re.search(pattern, "1 2DUPX ."))
        self.assertFalse(re.search(pattern, "x2DUP"))


class Calls(unittest.TestCase):
    """tools/bench/call, with what callgrind prints."""

    SAID = "==7== Events    : Ir\n==7== Collected : 78153663\n==7==\n==7== I   refs:      78,153,663\n"

    def test_how_many_instructions_callgrind_counted(self) -> None:
        module = command("tools/bench/call")
        self.assertEqual(78153663, module.collected(self.SAID))
        with self.assertRaises(SystemExit):
            module.collected("valgrind: no such program")

    def test_a_line_is_what_twice_as_many_take_more(self) -> None:
        module = command("tools/bench/call")
        with mock.patch.object(module, "instructions", side_effect=lambda words: 5000 + 40 * int(words[3])) as asked:
            self.assertEqual(40, module.each("program", "image", "lines", 1000))
        self.assertEqual([["program", "image", "lines", "2000"], ["program", "image", "lines", "1000"]], [it.args[0] for it in asked.call_args_list])
