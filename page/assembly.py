"""Puts the page's files together into one HTML file, and those of a film's own page."""
import base64
import hashlib
import html
import json
import pathlib
import re
import zlib
from typing import Dict, Iterable, List

HERE = pathlib.Path(__file__).resolve().parent
# The film's own page.
SHARED = HERE.parent / "teaching"
FIRST, OWN, LOADER = "main.js", "own.js", "unpack.js"
POLICY = "default-src 'none'; script-src '{loader}' '{script}' '{film}' 'wasm-unsafe-eval'; style-src 'unsafe-inline'; img-src data: blob:"
IMPORT = re.compile(r'^import \{[^}]*\} from "\./([\w-]+\.js)";\n', re.M)
FILM_MARK = "<!-- a film of ./forth film -->"
FILM_SCRIPTS = ("source.js", "steps.js", "showing.js", "moves.js", "motion.js", "overtime.js", "sheet.js", "player.js")
FILM_POLICY = "default-src 'none'; script-src {} 'wasm-unsafe-eval'; style-src '{}'; img-src data:"


def text_of(name: str) -> str:
    folder = HERE if (HERE / name).exists() else SHARED
    return (folder / name).read_text(encoding="utf-8")


def hashed(text: str) -> str:
    """How a policy names a script or a style."""
    return "sha256-" + base64.b64encode(hashlib.sha256(text.encode()).digest()).decode()


def joined(modules: Iterable[str]) -> str:
    """Files of a script as one. Those that others import as modules lose their `export`, and lines that are only comments go."""
    return '"use strict";\n' + "\n".join(re.sub(r"^export |^ *//.*\n", "", text, flags=re.M) for text in modules)


def unindented(script: str) -> str:
    """A script of the page's own files without the blanks at the beginnings of lines: no text in them goes on in the next line."""
    return re.sub(r"^ +", "", script, flags=re.M)


def in_order(name: str, found: List[str]) -> List[str]:
    """The modules that a module imports, and then itself, each once."""
    for other in IMPORT.findall(text_of(name)):
        if other not in found:
            in_order(other, found)
    found.append(name)
    return found


def bundle(first: str = FIRST, services: str = "") -> str:
    """All modules as one script: they have no name twice, so that imports and exports only have to go. SERVICES is a module with services of
    one's own, whose names are its own."""
    own = {OWN: f"const OWN_SERVICES = (() => {{\n{services}\nreturn SERVICES;\n}})();"} if services else {}
    return joined(own.get(name) or IMPORT.sub("", text_of(name)) for name in in_order(first, []))


def loader() -> str:
    """The script that starts the page's own, which has the same names again: so it has a block around it."""
    begins, _, code = bundle(LOADER).partition("\n")
    return f"{begins}\n{{\n{code}\n}}\n"


def filled(template: str, values: Dict[str, str]) -> str:
    """The template with each {{NAME}} replaced by its value; a name without a value stays."""
    return re.sub(r"\{\{([A-Z0-9]+)\}\}", lambda found: values.get(found[1], found[0]), template)


def packed(name: str, content: bytes) -> str:
    """An element with these bytes, packed as page/inflate.js unpacks them."""
    packing = zlib.compressobj(9, zlib.DEFLATED, -15)
    text = base64.b64encode(packing.compress(content) + packing.flush()).decode()
    return f'<script type="text/plain" id="packed-{name}" data-size="{len(content)}">{text}</script>'


def all_packed(data: Dict[str, object], files: Dict[str, bytes]) -> str:
    """The elements of a page's data and of its files."""
    everything = {"data": json.dumps(data, ensure_ascii=False).encode(), **files}
    return "\n".join(packed(name, content) for name, content in everything.items())


def film_page(elements: str, scripts: Iterable[str], parts: Dict[str, str]) -> str:
    """The film's own page with these elements at its end, and these parts. Its scripts and its style are named by their sums, so that the
    browser runs no others."""
    style = text_of("film.css")
    policy = FILM_POLICY.format(" ".join(f"'{hashed(code)}'" for code in scripts), hashed(style))
    return filled(text_of("film.html"), {"MARK": FILM_MARK, "POLICY": policy, "STYLE": style, "SCRIPTS": elements, **parts})


def film(data: Dict[str, object], files: Dict[str, bytes], parts: Dict[str, str]) -> str:
    """The page of `./forth film` with its data. FILES are the machine as `wasm`, the `image` and the `blocks`; PARTS are TITLE and LINE, as HTML."""
    code, player = unindented(bundle("filmed.js")), unindented(joined(map(text_of, FILM_SCRIPTS)))
    elements = f'{all_packed(data, files)}\n<script type="text/plain" id="player">{player}</script>\n<script type="module">{code}</script>'
    return film_page(elements, (code, player), {"MADE": "", "DATA": "", **parts})


def page(data: Dict[str, object], files: Dict[str, bytes], facts: Dict[str, str], services: str = "") -> str:
    """The page with its data. FILES are the machine as `wasm`, and the `image`; FACTS are TITLE, VERSION, SHA256, PROVED, CLAIM and ROSE, as texts;
    SERVICES is a module of the page's own."""
    script, player = bundle(services=services), unindented(joined(map(text_of, FILM_SCRIPTS)))
    if not services:
        script = unindented(script)
    values = {name: html.escape(text) for name, text in facts.items()}
    values["HELP"] = filled(text_of("help.html"), values)
    values["STYLE"] = text_of("page.css")
    values["SCRIPT"] = loader()
    values["POLICY"] = POLICY.format(loader=hashed(values["SCRIPT"]), script=hashed(script), film=hashed(player))
    film_of_tab = film_page(f"<script>{player}</script>", [player], {})
    values["PACKED"] = all_packed(data, {"film": film_of_tab.encode(), "script": script.encode(), **files})
    return filled(text_of("index.html"), values)
