"""Cases of targets/ that need no compiler, with results that were worked out by hand."""
import contextlib
import pathlib
import re
import sys
import tempfile
from typing import List

ROOT = pathlib.Path(__file__).resolve().parents[2]
sys.path.insert(0, str(ROOT / "build/targets"))

import in_c  # noqa: E402
import records  # noqa: E402
import retarget  # noqa: E402
from tally import Tally  # noqa: E402


CASES = ROOT / "tests/cases/retarget_cases.txt"
LAYOUT, WIDE = "e-m:e-p:32:32-i64:64", "e-m:e-i64:64-i128:128"


def lines(sign: str) -> List[str]:
    """The lines of the cases that begin with this sign, each with those below it that begin with `>`, without these signs."""
    parts = re.findall(rf"(?m)^{sign} .*(?:\n> .*)*", CASES.read_text(encoding="ascii"))
    return [re.sub(r"(?m)^[<>!] ", "", part) for part in parts]


def rewritten(line: str, layout: str = LAYOUT, triple: str = "wasm32") -> List[str]:
    return list(retarget.rewritten([line], layout, triple))


def refusal(line: str, layout: str) -> str:
    """Why a line is refused for a target with this layout."""
    try:
        return f"it became {rewritten(line, layout)}"
    except retarget.Unknown as error:
        return f"refused: {error}"


def check_retarget(cases: Tally) -> None:
    """The lines that are rewritten, kept and refused."""
    for line, *wanted in map(str.splitlines, lines("<")):
        if wanted:
            cases.same(f"retarget: {line}", wanted, rewritten(line))
            cases.same(f"retarget: {line} for 64 bits", [line.replace("ptrtoaddr", "ptrtoint")], rewritten(line, WIDE))
        for layout in () if wanted else (LAYOUT, WIDE):
            said = refusal(line, layout)
            cases.must(said.startswith("refused: ") and line.strip() in said, f"retarget doesn't refuse {line}: {said}")
    for layout in lines("!"):
        said = refusal("  ret i32 0", layout)
        cases.must(said.startswith("refused: ") and layout in said, f"retarget doesn't refuse the layout {layout}: {said}")
    head = "define noundef i32 @forth83_pop(ptr %a0) #0 {"
    cases.must(rewritten(head, WIDE, "aarch64-linux") == [head], "what a call returns on ARM")
    cases.must(rewritten(head, WIDE, "riscv64-linux") == ["define noundef signext i32 @forth83_pop(ptr %a0) #0 {"], "what a call returns on RISC-V")
    cases.must("@malloc(i32 %count)" in retarget.heap(32) and "@malloc(i64 %count)" in retarget.heap(64), "the sizes of malloc")
    for name, attributes in (('"machine::tick"', "#0 {"), ('"survey::report::line"', "minsize optsize #0 {"), ("forth83_pop", "minsize optsize #0 {")):
        made = list(retarget.rewritten([f"define i32 @{name}(ptr %a0) #0 {{"], LAYOUT, "wasm32", ["machine"]))
        cases.must(made == [f"define i32 @{name}(ptr %a0) {attributes}"], f"which functions have few bytes: {made}")
    cases.must(rewritten('target datalayout = "e-i64"') == [f'target datalayout = "{LAYOUT}"'], "the layout")
    cases.must(rewritten('attributes #0 = { nounwind sanitize_address "frame-pointer"="all" }') == ["attributes #0 = { nounwind }"], "attributes")
    cases.must(rewritten("declare void @rattle_dealloc(ptr noundef) #2") == [], "the heap's declarations")
    program = ["define i32 @main() #0 {", "  ret i32 0", "}", 'define internal noundef i32 @"c::forth83_run"(ptr %a0) #0 {', "}"]
    kept = [retarget.rename(line, "c::") for line in retarget.without_main(program, "c::")]
    cases.must(kept == ["define noundef i32 @forth83_run(ptr %a0) #0 {", "}"], f"the exports: {kept}")


RECORDS = """pub struct Small {
    pub one: u8,
    pub two: u16,
}

pub struct Big {
    pub count: u32,
    pub smalls: [Small; 3],
    pub memory: Memory,
    pub end: usize,
}
"""
BYTES = """pub struct Memory {
    pub bytes: [u8; 3],
}
"""
CALLS = 'pub extern "C" fn forth83_go(alloc: Global, big: &mut Big, text: &[u8], n: u16) -> u32\n'


def check_records(cases: Tally) -> None:
    """Records by the rules of C, and what calls want."""
    with tempfile.TemporaryDirectory() as name:
        library, memory = pathlib.Path(name) / "library", pathlib.Path(name) / "memory"
        for file, text in ((library / "src/record.rt", RECORDS), (library / "src/lib.rt", CALLS), (memory / "src/lib.rt", BYTES)):
            file.parent.mkdir(parents=True, exist_ok=True)
            file.write_text(text, encoding="utf-8")
        found, calls = records.records(library), records.calls(library)
    cases.must(found["Small"].size == 4 and [it.place for it in found["Small"].fields] == [0, 2], f"Small: {found['Small']}")
    cases.must(found["Big"].size == 32 and [it.place for it in found["Big"].fields] == [0, 4, 16, 24], f"Big: {found['Big']}")
    wanted = "record::Big { count: 0, smalls: [record::Small { one: 0, two: 0 }; 3], memory: memory::Memory { bytes: [0; 3] }, end: 0 }"
    cases.must(records.zero("Big", found) == wanted, f"zeros: {records.zero('Big', found)}")
    cases.must(calls == [records.Call("forth83_go", ["Global", "&mut Big", "&[u8]", "u16"])], f"calls: {calls}")


POINTING = (
    '@static.2 = private constant <{ [8 x i8], ptr, ptr }> <{ [8 x i8] c"AB\\00\\00\\00\\00\\00\\\\", ptr getelementptr (i8, ptr @static.1, i64 16), ' "ptr @static.1 }>, align 8"
)
UNITS = "{{{{65,66,0,0,0,0,0,92}},{.at = (const char *)f0.bytes + 16},{.at = (const char *)f0.bytes + 0}}}"


def check_in_c(cases: Tally) -> None:
    """The library in C: the bytes of constants, those with addresses, and the names of calls and of other functions."""
    cases.must(in_c.bytes_of("[6 x i8]", "A\\22\\\\\\5C") == b'A"\\\\\0\0', f"bytes: {in_c.bytes_of('[6 x i8]', 'A')!r}")
    made = in_c.pointing(in_c.Names(""), POINTING)
    cases.must(made == ("f1", ["f0", "f0"], f"static const struct {{ unit bytes[3]; }} f1 = {UNITS};\n"), f"a constant with addresses: {made}")
    cases.must(in_c.in_order({"b": (["a"], "B"), "a": ([], "A")}) == ["A", "B"], "constants before those that have their addresses")
    names = in_c.Names("")
    cases.must([names.name(it) for it in ("@forth83_run", '@"forth83_c::kept::keep"', "%x")] == ["forth83_run", "f0", "v_x"], "names of functions")
    for line in ("ret", "%a = freeze", "unreachable now", "fence seq_cst"):
        with contextlib.suppress(in_c.Unknown):
            in_c.Body(names).read([line])
            cases.must(False, f"the library in C does not refuse {line}")


def check() -> Tally:
    """All of them."""
    cases = Tally("check-targets")
    check_retarget(cases)
    check_records(cases)
    check_in_c(cases)
    return cases
