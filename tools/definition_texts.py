"""What screens define or why they are refused, and words as text, by the definitions: a witness is looked for, and they say whether it is one."""
from typing import Any, List, Optional, Tuple

from antt import Unknown
from definition_machine import NONE, defined
from std_words import listed

BODY, ITEMS = "colon_bodies", "image_builder"
SEMI, WHOLE = ("SEMI",), ("Whole",)
MAKES = {"Variable": ("Variable",), "Create": ("Create",), "Vocabulary": ("Vocabulary",)}
LAYS = {"Comma": "Cell", "CharComma": "Byte", "Allot": "Allot"}
Step = Tuple[Any, Optional[Any]]


def title(place: Any) -> str:
    """A word of a source, by where it is."""
    return f"screen {place.f_screen} offset {place.f_offset}"


def definition_of(words: List[Any]) -> Any:
    """The definition that these words of a body are."""
    state: Any = ("At", ("Top",), ("Empty",), ("Free",))
    for word in words:
        state = defined(f"{BODY}.Open.read")(*state[1:], word)[1]
    return defined(f"{BODY}.Open.whole")(*state[1:])[1]


def start_of(items: Any, place: Any) -> Step:
    """What a word begins, or is, where an item begins."""
    kind, *number = place.f_sort
    if kind == "Immediate":
        return WHOLE, ("Immediate",)
    if kind == "Other":
        return ("Chosen", defined(f"{ITEMS}.Meanings.record_named")(items, place)[1]), None
    if kind == "Number":
        return ("Counted", number[0]), None
    return ("Due", ("Makes", MAKES[kind]) if kind in MAKES else ("Defines",) if kind == "Colon" else ("Starts",)), None


def named(items: Any, lead: Any, place: Any) -> Step:
    """What the word is that is due as a name."""
    if lead[0] == "Makes":
        return WHOLE, ("Header", place, lead[1])
    if lead[0] == "Defines":
        return ("Inside", place, listed(())), None
    return WHOLE, ("Boot", defined(f"{ITEMS}.Names.address")(defined(f"{ITEMS}.Meanings.look")(items, place)[1]))


def inside(items: Any, name: Any, before: Any, place: Any) -> Step:
    """What a word of a body leads to, after these words."""
    half = defined(f"{BODY}.Rules.half_of")(("Free",), before)
    word = defined(f"{ITEMS}.Meanings.meaning")(half, items, place)[1]
    return (WHOLE, ("Colon", name, definition_of(list(before)))) if word == SEMI else (("Inside", name, (*before, word)), None)


def step(items: Any, stage: Any, place: Any) -> Step:
    """What is started after one more word that has no cause, and the item that is whole with it."""
    kind = place.f_sort[0]
    if stage == WHOLE:
        return start_of(items, place)
    if stage[0] == "Due":
        return named(items, stage[1], place)
    if stage[0] == "Inside":
        return inside(items, stage[1], stage[2], place)
    if stage[0] == "Chosen":
        return WHOLE, ("Definitions", stage[1])
    made = ("Makes", ("Primitive" if kind == "Prim" else "Constant", stage[1]))
    return (WHOLE, (LAYS[kind], stage[1])) if kind in LAYS else (("Due", made), None)


def items_of(places: List[Any], limit: int, last: int) -> Any:
    """The items that the words of a source are, of which this is the last screen. A source that is refused is refused by the first word that has
    a cause by `cause_at`."""
    items: Any = ("Nothing",)
    stage: Any = WHOLE
    words: Tuple[Any, ...] = ()
    for at, place in enumerate(places, 1):
        cause = defined(f"{ITEMS}.Faults.cause_at")(limit, items, stage, place, listed(places[at:]))
        if cause != NONE:
            raise Unknown(f"{title(place)}: {cause[1][0]}")
        stage, item = step(items, stage, place)
        words = (*words, place)
        if item and not defined(f"{ITEMS}.Grammar.IsSound")(limit, items, words, item):
            raise Unknown(f"{title(place)}: no cause, and by IsSound this item may not come here")
        items, words = (("Then", items, words, item), ()) if item else (items, words)
    if stage != WHOLE or defined(f"{ITEMS}.Items.boot")(items) == NONE:
        raise Unknown(f"screen {last} offset 1024: {'EndsInside' if stage != WHOLE else 'NoBoot'}")
    return items


def build(first: int, screens: List[bytes], buffers: int) -> Any:
    """The image that screens define, of which the first has this number; refuses a source that is not good."""
    places = list(defined(f"{ITEMS}.Spelled.all_placed")(defined("source_words.Words.source_words")(first, tuple(screens))))
    limit = defined("memory.Bytes.limit_of")(buffers)
    items = items_of(places, limit, first + len(screens) - 1)
    entry = defined(f"{ITEMS}.Items.boot")(items)[1]
    if not defined(f"{ITEMS}.Faults.IsGood")(limit, tuple(places), items, entry):
        raise Unknown("no word has a cause, and by IsGood the source is not good")
    return {"buffers": buffers, "entry": entry, "bytes": defined(f"{ITEMS}.Items.image")(items)}


def refusal(screens: List[bytes]) -> str:
    """Why screens from 1 on are refused, and where; empty if they are not."""
    try:
        build(1, screens, 4)
    except Unknown as refused:
        return str(refused)
    return ""


def see(memory: bytes, name: bytes) -> str:
    """The text of the word that a name means, or why there is none."""
    sought = defined("dictionary.Search.sought")(memory, name)
    if sought[0] != "Found" or not defined("see.Seeing.IsHeader")(memory, name, sought[1]):
        return f"refused: {'NotFound' if sought[0] == 'Nowhere' else 'ChainTooLong'}"
    link = sought[1]
    if not defined("see.Seeing.IsColon")(memory, name, link):
        return "refused: NotColon"
    field = defined("see.Extent.parameter_field")(memory, link)
    cells = defined("see.Extent.controls_of")(memory)
    body = defined(f"{BODY}.Found.found")(lambda k: cells[k] if k < len(cells) else 0, defined("see.Extent.extent")(memory, field), field)
    if body == NONE or not defined("see.Seeing.IsDefined")(memory, name, link, body[1]):
        return "refused: NotStructured, unless a definition has this thread that was not found"
    words = defined("see.Printing.its_words")(body[1])
    fault = defined("see.Naming.first_fault")(memory, link, name, words)
    if fault != NONE:
        return f"refused: {' '.join(map(str, fault[1]))}"
    if not defined("see.Naming.IsReadable")(memory, link, name, words) or not defined("see.ReadAgain.AreCells")(words):
        return "refused: by IsReadable it can't be read again"
    return str(defined("see.Printing.text")(memory, link, name, body[1]).decode("ascii", "replace"))
