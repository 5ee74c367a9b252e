"""Cases of the parts of page/ that need no program, with results that were worked out by hand."""
import pathlib
import re
import sys
import zlib
from typing import Dict

import node
import page_steps
from tally import Tally

ROOT = pathlib.Path(__file__).resolve().parents[2]
PAGE = ROOT / "page"
# A module in teaching/ that the page's own script uses, too.
SHARED = {"source.js"}
sys.path[:0] = [str(PAGE), str(ROOT / "build/targets")]

import assembly  # noqa: E402
import contents  # noqa: E402
import course_lessons  # noqa: E402
import records  # noqa: E402
from served import table  # noqa: E402

LESSONS = """# A course

## 1. First `lines`

Text with **weight**
and [a link](X.md).

```
$ ./forth course.blk
> 1 LOAD
ready ok
> 3 4 + .
7  ok
$ ./forth film SQUARES '5 SQUARES'
made
> BYE
```
"""
FIRST = (
    '<h2>1. First <code>lines</code></h2><p>Text with <strong>weight</strong> and a link.</p><div class="typing">'
    '<button type="button" data-line="3 4 + .">3 4 + .</button><pre>7  ok</pre>'
    '<button type="button" data-film="5 SQUARES">▶ the steps of 5 SQUARES</button></div>'
)


def check_contents(cases: Tally) -> None:
    """The lessons and the manual."""
    made = contents.lessons(LESSONS, {2: ["for another lesson"]})
    cases.must(made == [{"number": 1, "title": "1. First `lines`", "disk": "course.blk", "screen": 21, "html": FIRST}], f"a lesson: {made}")
    helped = contents.lessons(LESSONS, {1: ["+: a < b", ".: last"], 2: ["no"]})[0]["html"]
    wanted = FIRST + "<details><summary>Hints</summary><ul><li>+: a &lt; b</li><li>.: last</li></ul></details>"
    cases.must(helped == wanted, f"a lesson with hints: {helped}")
    words = {word[0]: word[1:] for word in contents.manual()}
    of_dup = ["( x -- x x )", "The data stack", "Copies the top. Example: <code>3 DUP . .</code> shows <code>3 3</code>."]
    cases.must(words["DUP"] == of_dup and "HISTORY" not in words, f"the manual: {words['DUP']}")
    helping = [lesson["number"] for lesson in contents.course() if "<summary>Hints" in str(lesson["html"])]
    cases.must(helping == [lesson.number for lesson in course_lessons.read() if lesson.hints] != [], f"lessons with hints: {helping}")


def check_disks(cases: Tally, program: pathlib.Path) -> None:
    """A file of blocks in the page's data: as the shorter of its text and its bytes."""
    block = "% AT".ljust(64) + " " * 64 + "B".ljust(896)
    as_text = {"count": 2, "text": "% screen 0\n% screen 1\n%% AT\n\nB\n"}
    cases.must(contents.disk_of_blocks((" " * 1024 + block).encode(), program) == as_text, "a disk of text")
    cases.must(contents.disk_of_blocks(bytes(1024), program) == {"bytes": "A" * 1366 + "=="}, "a disk of zeros")


def check_canvas(cases: Tally) -> None:
    """A picture file has the rows of the canvas, and the palette; a file without a whole canvas has none."""
    blocks = bytes(1024) + b"\xf4" + bytes(32 * 1024 - 1)
    content = contents.canvas.canvas_of(blocks, 1)
    picture = contents.canvas.png(content)
    at = picture.index(b"IDAT")
    rows = zlib.decompress(picture[at + 4 : at + 4 + int.from_bytes(picture[at - 4 : at], "big")])
    cases.must(len(rows) == 200 * 161 and rows[:3] == b"\0\xf4\0" and rows[161] == 0, f"the rows of a picture: {rows[:4]!r}")
    cases.must(picture[16:24] == bytes([0, 0, 1, 64, 0, 0, 0, 200]) and picture[24:26] == b"\4\3", "the head of a picture")
    palette = picture[picture.index(b"PLTE") + 4 :]
    cases.must(palette[:3] == bytes(3) and palette[45:48] == b"\xff" * 3, "the palette of a picture")
    cases.must(contents.canvas.canvas_of(blocks, 2) == b"", "a canvas after the end of the file")


def check_assembly(cases: Tally) -> None:
    """The modules in one script: each after those that it imports, with no name twice; data that can't end the script."""
    order, others = assembly.in_order("main.js", []), [*assembly.in_order("filmed.js", []), *assembly.in_order("unpack.js", [])]
    cases.must({*order, *others} == {file.name for file in PAGE.glob("*.js")} | SHARED, f"modules that main.js, filmed.js and unpack.js do not use: {order}")
    for at, name in enumerate(order):
        later = [it for it in assembly.IMPORT.findall(assembly.text_of(name)) if it not in order[:at]]
        cases.must(not later, f"{name} comes before {later}")
    script = assembly.bundle()
    names = re.findall(r"^(?:async )?(?:function\*?|class) (\w+)", script, re.M)
    for line in re.findall(r"^(?:const|let) .*(?:,\n .*)*", script, re.M):
        names += re.findall(r"(?:^const |^let |, |\n *)(\w+) = ", line)
    cases.must(len(names) == len(set(names)), f"names twice: {sorted({it for it in names if names.count(it) > 1})}")
    cases.must(not re.search(r"^(import|export)\b", script, re.M), "imports or exports are left")
    text = assembly.page({"text": "</script><!--"}, {}, {"TITLE": "A & B", "VERSION": "v", "SHA256": "s", "PROVED": "p", "CLAIM": "c", "ROSE": "r"})
    cases.must("</script><!--" not in text and "<title>A &amp; B</title>" in text, "the data end the script")
    cases.must(all(f"'{assembly.hashed(code)}'" in text for code in (assembly.unindented(script), assembly.loader())), "the policy does not name the page's scripts")
    cases.must("{{" not in re.sub(r"<script>.*</script>", "", text, flags=re.S), "a place of the template isn't filled")


def check_modules(cases: Tally) -> None:
    """The modules of the page that need no browser, in node."""
    if not node.node():
        print("check-page: there is no node here; the page's modules are tried in the browser alone")
        return
    files = [*PAGE.glob("*.js"), *(assembly.SHARED / name for name in SHARED)]
    data: Dict[str, object] = {"door": contents.door(), **contents.texts({}), "layout": records.layout()}
    with node.Node(files, data) as host:
        runner = page_steps.Runner(host, PAGE, cases)
        runner.given["services"] = " ".join(sorted(set(table.NAMES) - {"PROMPT"}))
        runner.run("modules")


def check(cases: Tally) -> None:
    """All that needs no program."""
    for part in (check_contents, check_canvas, check_assembly, check_modules):
        part(cases)
