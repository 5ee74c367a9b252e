"""The promises of docs/PROMISES.md, each with the functions whose clauses make it, the traits that it speaks of, and in plain words."""
from typing import Dict, List, NamedTuple, Tuple

Function = Tuple[str, ...]  # a crate, a file of its src/, a function, and the clauses that are meant if not all
Trait = Tuple[str, str, str]  # a crate, a file of its src/, and a trait, whose clauses say what logs and answers of the ends mean


class Promise(NamedTuple):
    """What is promised, in plain words, and where."""

    functions: List[Function]
    traits: List[Trait]
    says: str


DEVICE: Trait = ("block_buffers", "devices.rt", "Device")
ENDS: List[Trait] = [DEVICE, ("inner_interpreter", "ends.rt", "Input"), ("inner_interpreter", "ends.rt", "Output")]
FILES: List[Trait] = [*ENDS, ("named_files", "files.rt", "Files")]
MAKE: List[Function] = [("inner_interpreter", "hosts.rt", "make_moves"), ("machine", "lent_machine.rt", "load")]
RUN: List[Function] = [("run_subcommand", "run_command.rt", "do_run", "moved"), ("inner_interpreter", "laws.rt", "moves_law")]
BUILD: List[Function] = [("image_builder", "building.rt", "build", "read"), ("subcommands", "commands.rt", "do_build", "read")]
REFUSED: List[Function] = [("image_builder", "building.rt", "build", "refused")]
LOADS: List[Function] = [("image_loader", "reader.rt", "read", "accepted"), ("machine", "machine.rt", "load")]
LIBRARY = ("load_3", "run", "read", "written", "ended", "failed", "page", "enter", "call", "resume", "abi", "find", "push", "pop", "save")
HEADLINE = "The headline: the four after the table together"

PROMISES: Dict[str, Promise] = {
    "The table: one tick, one answer, many ticks": Promise(
        [("machine", "machine.rt", "tick"), ("machine", "machine.rt", "ticks"), ("machine", "machine.rt", "answer"), ("machine", "machine.rt", "load")],
        [],
        "A tick fetches a token from memory as it is then and does just what its row says; an answer is taken if it fits what was asked, and does just what "
        "the definition of an answer says; many ticks are that many single ones.",
    ),
    "Every list of moves": Promise(
        MAKE,
        ENDS,
        "Whatever ticks, answers and entered words a host makes, in whatever order: the machine's state, the bytes that it shows, and its requests, faults and "
        "halts are those that `made` says of that list.",
    ),
    "A run": Promise(
        RUN,
        ENDS,
        "A run of an image moves the machine by ticks and answers alone. It is given just the bytes that were typed and the blocks that were read, and shows just "
        "the bytes of these moves.",
    ),
    "What screens define": Promise(
        BUILD, ENDS, "The image that `build` makes of screens has just the items that the words of these screens spell, byte for byte, and each screen is read once, in order."
    ),
    "Image files": Promise(LOADS, [], "A file of an image is read as that image, and the machine that is loaded of it has its bytes, zeros after them, and its entry pending."),
    HEADLINE: Promise(
        MAKE + RUN + BUILD + LOADS,
        ENDS,
        "For every image and every list of moves the machine is the written table, also where programs alter their own threads; and the image that `build` makes "
        "loads to exactly what its screens define.",
    ),
    "Why a source is refused": Promise(
        REFUSED, ENDS, "A source that is refused has the fault that the answer names, at that place, and it is the first one; one that has a fault is refused."
    ),
    "DEBUG": Promise([("debug_tracer", "debugging.rt", "debug")], ENDS, "A word under DEBUG runs as it runs otherwise, and each line of the trace is the state before that step."),
    "SEE": Promise(
        [("see", "seeing.rt", "see")], [], "The text of a word that SEE answers is a definition which compiles to just the word's thread; any other word is refused, and why."
    ),
    "Requests of a host": Promise(
        [("serving", "serving.rt", "serve"), ("serving", "laws.rt", "framing_law"), ("serving", "laws.rt", "kept_law")],
        ENDS,
        "What a host's frames ask is done, each request after the other, and nothing else; just the replies that the definitions say are sent.",
    ),
    "How requests are spelled": Promise(
        [("serving", "laws.rt", "spelling_law")], [], "Each request that a frame can spell is read from the frame that spells it, and from no other one."
    ),
    "The resident compiler agrees": Promise(
        [("metacompiler", "load.rt", "load_on"), ("metacompiler", "load.rt", "load_by_machine"), ("metacompiler", "laws.rt", "agree_law")],
        ENDS,
        "Screens that are loaded on a machine compile to what `build` makes of them.",
    ),
    "Containers": Promise(
        [("subcommands", "container_command.rt", "do_import"), ("subcommands", "container_command.rt", "do_export")],
        [],
        "What is imported from another system's disk or file, and exported again, are the same screens.",
    ),
    "The program over its files": Promise(
        [("forth83", "main.rt", "run_line")], FILES, "Each subcommand reads and writes the files that its words name, and leaves all others alone."
    ),
    "The command line": Promise([("command_words", "lib.rt", "parse")], [], "The words that are obeyed are those that were typed."),
    "The C library": Promise(
        [("forth83_c", "lib.rt", f"forth83_{name}") for name in LIBRARY],
        [],
        "Each call of the library does to the record in memory what the table says of the machine that it holds.",
    ),
}

# The reading guide: what to read in which order, the files that have it, and what to check it against. Each file of the headline is in one of them.
GUIDE: List[Tuple[str, str, str]] = [
    ("cells and memory", "cells/Cell memory/Bytes memory/Controls memory/Mirrored", "Forth-83: numbers wrap, the low byte has the lower address, division rounds down"),
    ("the parts of a machine, and how a row is written", "machine_parts/Whole machine_parts/Row machine/State", 'MACHINE.md, "Tokens"'),
    (
        "rows 1 to 107",
        "plain_rows/Control plain_rows/Stack plain_rows/Cell plain_rows/Double plain_rows/MemoryRows",
        "the Standard's glossary, word by word, and the worked states",
    ),
    (
        "block buffers, and the rows of devices",
        "block_buffers/Entries block_buffers/Screens primitives/Blocks primitives/Devices",
        'the Standard, BLOCK to FLUSH; MACHINE.md, "Blocks"',
    ),
    (
        "numbers as text, and their rows",
        "number_text/Digits number_text/Base number_text/Picture number_text/Conversion number_text/Numbers primitives/Numbers",
        "the Standard, <# to SIGN, CONVERT",
    ),
    ("the stream, and its rows", "input_source/Streams input_source/Words input_source/Placing primitives/Streams", "the Standard, WORD, ( and .("),
    (
        "the dictionary, and its rows",
        "dictionary/Header dictionary/Laying dictionary/Chain dictionary/Search dictionary/Adding dictionary/Newest dictionary/Order dictionary/Forgetting "
        "primitives/Names primitives/DictionaryRows primitives/Interpret",
        'MACHINE.md, "The dictionary"; the Standard, FIND to FORGET',
    ),
    (
        "what compiling words write, and the editor",
        "compiling_words/Code compiling_words/Laying compiling_words/Definitions primitives/Defining primitives/Compiling primitives/Editor",
        "the Standard, : to WHILE; EDITOR",
    ),
    (
        "which number is which row",
        "plain_rows/Table primitives/Table",
        "`row`; its tables are made of the headings (`tests/sources/check-definitions --write`), which are those of [primitives.txt](primitives.txt)",
    ),
    (
        "a tick, an answer, lists of them",
        "machine/Tick machine/Answer machine/Entering inner_interpreter/Moves inner_interpreter/Histories inner_interpreter/Hosts inner_interpreter/Runs",
        'MACHINE.md, "Tokens", "Faults", "Blocks", "Keys and lines"',
    ),
    (
        "the ends: what readers, writers and devices keep, and what their clauses say",
        "inner_interpreter/Ends inner_interpreter/Reads inner_interpreter/Reports block_buffers/DeviceCalls block_buffers/Disks block_buffers/Calls block_buffers/Likeness "
        "block_buffers/ReadPages block_buffers/devices.rt inner_interpreter/ends.rt",
        'PROMISES, "Logs"',
    ),
    ("a run", "run_subcommand/Running subcommands/Lines subcommands/Ends subcommands/Statuses", 'PROGRAM.md, "Running an image"; MACHINE.md, "Running an image"'),
    (
        "words of a source",
        "source_words/Words source_words/Modes image_builder/Places image_builder/Spelled image_builder/Names image_builder/Meanings",
        'PROGRAM.md, "The language of `build`"',
    ),
    (
        "what words define, and the image",
        "colon_bodies/* image_builder/Grammar image_builder/Items image_builder/Faults image_builder/Stages image_builder/Sources",
        'MACHINE.md, "The dictionary", "Image files"; dump an image',
    ),
    ("image files", "image_loader/Files subcommands/Images", 'MACHINE.md, "Image files"'),
]
