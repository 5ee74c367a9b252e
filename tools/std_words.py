"""The words of std that definitions use, each with std's own statement of it and a Python function that computes the same.

Lists are `bytes` if all that they have are numbers below 256, and tuples otherwise, so that equal lists are equal in Python; numbers
of both kinds are Python's, and a test is a bool. `Some x` is `("Some", x)`; so are all values that constructors make.
"""
from typing import Any, Callable, Dict, List, NamedTuple, Tuple


class Word(NamedTuple):
    """How many arguments a word takes, what computes it, and std's statement."""

    takes: int
    does: Callable[..., Any]
    says: str


NONE = ("None",)


def listed(items: Any) -> Any:
    """The list of these."""
    items = tuple(items)
    if not items or (type(items[0]) is int and max(items) < 256):
        return bytes(items)
    return items


def cons(first: Any, rest: Any) -> Any:
    if type(rest) is bytes and type(first) is int and first < 256:
        return bytes((first,)) + rest
    return (first, *rest)


def append(front: Any, rest: Any) -> Any:
    if type(front) is type(rest):
        return front + rest
    return (tuple(front) + tuple(rest)) if front and rest else front or rest


def tail(items: Any) -> Any:
    return items[1:] if type(items) is bytes else listed(items[1:])


def part(items: Any, first: int, end: int) -> Any:
    return items[first:end] if type(items) is bytes else listed(items[first:end])


def take(count: int, items: Any) -> Any:
    return part(items, 0, count)


def drop(count: int, items: Any) -> Any:
    return part(items, count, len(items))


def at_or(items: Any, place: int, other: Any) -> Any:
    return items[place] if place < len(items) else other


def with_item(items: Any, place: int, item: Any) -> Any:
    if place >= len(items):
        return items
    if type(items) is bytes and type(item) is int and item < 256:
        return items[:place] + bytes((item,)) + items[place + 1 :]
    return append(take(place, items), cons(item, drop(place + 1, items)))


def prefix(test: Callable[[Any], bool], items: Any) -> int:
    return next((place for place, item in enumerate(items) if not test(item)), len(items))


def found(test: Callable[[Any], bool], items: Any) -> Tuple[Any, ...]:
    return next((("Some", item) for item in items if test(item)), NONE)


def folded(act: Callable[[Any], Callable[[Any], Any]], start: Any, items: Any) -> Any:
    for item in items:
        start = act(start)(item)
    return start


def digits(base: int, number: int) -> Any:
    if base < 2:
        raise ValueError("a base below 2")
    made: List[int] = []
    while number:
        made.append(number % base)
        number //= base
    return listed(reversed(made))


def quotient(number: int, divisor: int) -> int:
    return number // divisor if divisor else 0


def remainder(number: int, divisor: int) -> int:
    return number % divisor if divisor else number


def euclid(number: int, divisor: int) -> int:
    return quotient(number - number % abs(divisor), divisor) if divisor else 0


def signed(width: int, number: int) -> int:
    return number if number < 1 << (width - 1) else number - (1 << width)


WORDS: Dict[str, Word] = {
    "not": Word(1, lambda b: not b, "not true = false; not false = true"),
    "cond": Word(3, lambda b, x, y: x if b else y, "cond true x y = x; cond false x y = y"),
    "eqb": Word(2, lambda a, b: a == b, "eqb a b: a is b"),
    "nat_eq": Word(2, lambda a, b: a == b, "nat_eq a b: a is b"),
    "nat_lt": Word(2, lambda a, b: a < b, "nat_lt a b: a is below b"),
    "nat_le": Word(2, lambda a, b: a <= b, "nat_le a b: a is at most b"),
    "ltb": Word(2, lambda a, b: a < b, "ltb a b: a is below b"),
    "int_lt": Word(2, lambda a, b: a < b, "int_lt a b: the integer a is below b"),
    "min": Word(2, min, "min a b: the lesser of two numbers"),
    "max": Word(2, max, "max a b: the greater of two numbers"),
    "pos": Word(1, lambda n: n, "pos n: the number n, as an integer"),
    "negsuc": Word(1, lambda n: -n - 1, "negsuc n: the integer -(n + 1)"),
    "neg_ℤ": Word(1, lambda z: -z, "neg_ℤ z: -z"),
    "int_div_euclid": Word(2, euclid, "int_div_euclid a b: the quotient whose remainder is not negative"),
    "int_rem_euclid": Word(2, lambda a, b: a % abs(b) if b else a, "int_rem_euclid a b: that remainder"),
    "w16": Word(0, lambda: 16, "w16: cells of 16 bits"),
    "w32": Word(0, lambda: 32, "w32: cells of 32 bits"),
    "cast_signed": Word(2, signed, "cast_signed w n: the integer whose two's complement in w bits is n"),
    "cast_unsigned": Word(2, lambda w, z: z if z >= 0 else max(0, (1 << w) + z), "cast_unsigned w z: the two's complement of z in w bits"),
    "bit_and": Word(2, lambda a, b: a & b, "bit_and a b: the bits that both have"),
    "bit_or": Word(2, lambda a, b: a | b, "bit_or a b: the bits that one of them has"),
    "bit_xor": Word(2, lambda a, b: a ^ b, "bit_xor a b: the bits that just one of them has"),
    "length": Word(1, len, "length xs: how many items xs has"),
    "take": Word(2, take, "take n xs: the first n of xs; all, where there are fewer"),
    "drop": Word(2, drop, "drop n xs: xs without the first n"),
    "replicate": Word(2, lambda n, x: listed((x,) * n), "replicate n x: n times x"),
    "reverse": Word(1, lambda xs: xs[::-1], "reverse xs: the items the other way round"),
    "slice_index": Word(2, lambda xs, i: at_or(xs, i, 0), "slice_index xs i: item i of xs, counted from 0; 0 past the end"),
    "slice_index_or": Word(3, at_or, "slice_index_or xs i d: item i of xs, counted from 0; d past the end"),
    "slice_set": Word(3, with_item, "slice_set xs i x: xs with x as item i; xs itself past the end"),
    "remove": Word(2, lambda xs, i: append(take(i, xs), drop(i + 1, xs)), "remove xs i = take i xs ++ drop (suc i) xs"),
    "map": Word(2, lambda f, xs: listed(f(x) for x in xs), "map f xs: f of each item"),
    "filter": Word(2, lambda test, xs: listed(x for x in xs if test(x)), "filter test xs: the items that pass the test, in order"),
    "flat_map": Word(2, lambda f, xs: listed(y for x in xs for y in f(x)), "flat_map f xs: the lists f x joined, for each item x in turn"),
    "fold": Word(3, folded, "fold f a [] = a; fold f a (x ∷ xs) = fold f (f a x) xs"),
    "reduce": Word(2, lambda f, xs: ("Some", folded(f, xs[0], xs[1:])) if xs else NONE, "reduce f [] = None; reduce f (x ∷ xs) = Some (fold f x xs)"),
    "find": Word(2, found, "find test xs: the first item that passes the test"),
    "list_all": Word(2, lambda test, xs: all(map(test, xs)), "list_all test xs: each item passes the test"),
    "list_any": Word(2, lambda test, xs: any(map(test, xs)), "list_any test xs: an item passes the test"),
    "prefix_len": Word(2, prefix, "prefix_len test xs: how many items pass the test before the first that doesn't"),
    "position_or_len": Word(2, lambda test, xs: prefix(lambda x: not test(x), xs), "position_or_len test xs = prefix_len (λ x. not (test x)) xs"),
    "take_while": Word(2, lambda test, xs: take(prefix(test, xs), xs), "take_while test xs = take (prefix_len test xs) xs"),
    "bytes_eq": Word(2, lambda xs, ys: xs == ys, "bytes_eq xs ys: both have the same bytes"),
    "codes": Word(1, lambda text: text.encode(), 'codes "..": the bytes of a text'),
    "signed_decimal": Word(1, lambda z: str(z).encode(), "signed_decimal z: the digits of z in base 10, after a - where it is below 0"),
    "little_bytes": Word(2, lambda n, x: x.to_bytes(n, "little"), "little_bytes n x: the n bytes of the number x, the lowest first"),
    "digits_of": Word(2, digits, "digits_of b n: the digits of n in base b, the highest first; none for 0"),
    "is_some": Word(1, lambda x: x != NONE, "is_some x: x is no None"),
    "is_none": Word(1, lambda x: x == NONE, "is_none x: x is None"),
    "option_map": Word(2, lambda act, x: NONE if x == NONE else ("Some", act(x[1])), "option_map f x: None of None, Some (f y) of Some y"),
    "unwrap_or": Word(2, lambda x, d: d if x == NONE else x[1], "unwrap_or None d = d; unwrap_or (Some x) d = x"),
    "IsTrue": Word(1, lambda b: b, "IsTrue b = b ≡ true"),
    "IsFalse": Word(1, lambda b: not b, "IsFalse b = b ≡ false"),
    "IsSome": Word(1, lambda x: x != NONE, "IsSome x: x is no None"),
    "All": Word(2, lambda test, xs: all(map(test, xs)), "All P xs: P of each item of xs"),
}

# Words that definitions cite and that nothing runs here: std's statements alone.
OTHERS: Dict[str, str] = {
    "Bool": "the two values true and false",
    "true": "a Bool",
    "false": "a Bool",
    "zero": "0",
    "suc": "suc n = n + 1",
    "List": "List A: the lists of values of A",
    "Option": "Option A: None, and Some x for each x of A",
    "Some": "an Option",
    "None": "an Option",
    "Result": "Result A E: Ok x for each x of A, and Err e for each e of E",
    "Ok": "a Result",
    "Err": "a Result",
    "Vec": "a vector; v.items is the list of its items",
    "String": "a text of the code",
    "Global": "where memory comes from",
    "Bor": "a loan; x.now is the value",
    "string_bytes": "string_bytes s: the bytes of a text",
    "IfOk": "IfOk r P: where r is Ok x, P x",
    "IfErr": "IfErr r P: where r is Err e, P e",
    "OnOk": "OnOk r P: where r is Ok x, P",
    "OnErr": "OnErr r P: where r is Err e, P",
    "IsOk": "IsOk r: r is Ok x for some x",
    "IsOkAnd": "IsOkAnd r P: r is Ok x, and P x",
    "IsErrOf": "IsErrOf r e = r ≡ Err e",
    "MatchResult": "MatchResult (Ok x) P Q = P x; MatchResult (Err e) P Q = Q e",
    "IfSome": "IfSome o P: where o is Some x, P x",
    "IsSomeAnd": "IsSomeAnd o P: o is Some x, and P x",
    "IsNone": "IsNone o: o is None",
    "MatchOption": "MatchOption (Some x) P Q = P x; MatchOption None P Q = Q",
    "option_map": "option_map f None = None; option_map f (Some x) = Some (f x)",
    "AllPairs": "AllPairs R xs: R x y of each item x of xs and each later item y",
    "Contains": "Contains xs x: x is an item of xs",
    "count_by": "count_by p xs: how many items pass the test p",
    "slice_range": "slice_range xs a b = take (b - a) (drop a xs)",
    "slice_split": "slice_split p xs: the parts of xs between the items that pass p",
    "lines": "lines bs: the lines of bytes, without their ends",
    "Keeps": "Keeps old new: known bytes (Some xs) stay as they were",
    "Appends": "Appends old new bs: known bytes grow by bs at the end",
    "Consumes": "Consumes old new bs: known bytes begin with bs, and lose them",
    "IsAtEnd": "IsAtEnd o: no known byte is left",
    "WriteAppends": "WriteAppends old new r bs: at Ok n known bytes grow by the first n of bs, at Err they stay",
    "decimal": "decimal n: the digits of n in base 10",
    "IsNumeral": "IsNumeral base ds: ds are digits of the base, one at least",
    "digits_value": "digits_value base ds: the number that digits write",
    "without_leading_plus": "without_leading_plus bs: bs, without a + at its beginning",
}

# What the operators are in Python; `quotient` and `remainder` by 0 are 0 and the number.
FORMS: Dict[str, str] = {
    "+ +ℤ": "({} + {})",
    "-": "max(0, {} - {})",
    "-ℤ": "({} - {})",
    "* *ℤ": "({} * {})",
    "/": "quotient({}, {})",
    "%": "remainder({}, {})",
    "^": "({} ** {})",
    "== ≡ ↔": "({} == {})",
    "≢": "({} != {})",
    "< <ℤ": "({} < {})",
    "≤ ≤ℤ": "({} <= {})",
    "&& ×": "({} and {})",
    "|| ⊎": "({} or {})",
    "∷": "cons({}, {})",
    "++": "append({}, {})",
}
OPERATORS: Dict[str, str] = {sign: form for signs, form in FORMS.items() for sign in signs.split()}

# Std's statement of each word.
STATEMENTS: Dict[str, str] = {**{name: word.says for name, word in WORDS.items()}, **OTHERS}
