"""What `inspect` answers for a problem file, and the cases that show it.

    python3 tests/file_cases.py            check the case files and the examples
    python3 tests/file_cases.py --write    write the case files

Every case carries its answer written out by hand. The answer is compared with
the one that `inspect` below gives, so the two check each other.
"""

import re
import struct
import sys
from collections.abc import Iterator, Sequence
from pathlib import Path
from typing import NamedTuple

ROOT = Path(__file__).resolve().parent.parent
CASES = ROOT / "crates" / "file_cases"
EXAMPLES = ROOT / "examples"

HEADER = 16
MOST_VARIABLES = 64
MOST_FUNCTIONS = 64
MOST_ENTRIES = 4096
MOST_WORDS = 1024
MOST_VALUES = 16
MOST_PLACES = 4
RECORD = 5
UNUSED = 255


# What `inspect` answers.


def inspect(data: bytes) -> list[str]:
    """The lines of the answer for a problem file."""
    fault = next(faults(data), None)
    if fault is not None:
        number, place = fault
        return [f"refused {number} {place}"]
    code, variables, functions, entries = struct.unpack_from("<4H", data)
    sizes = data[HEADER + variables : HEADER + variables + RECORD * functions : RECORD]
    return accepted(code, variables, functions, entries, sum(sizes), len(data))


def accepted(code: int, variables: int, functions: int, entries: int, links: int, length: int) -> list[str]:
    """The answer for a file without a fault."""
    return [
        "accepted",
        f"scale {code}",
        f"variables {variables}",
        f"functions {functions}",
        f"entries {entries}",
        f"links {links}",
        f"bytes {length}",
        "same yes",
    ]


def faults(data: bytes) -> Iterator[tuple[int, int]]:
    """Number and place of each fault, in the order of the tests. Take the first only."""
    if len(data) < HEADER:
        yield 18, 0
    code, variables, functions, entries, *offsets = struct.unpack_from("<8H", data)
    if code not in (1, 2, 3, 4):
        yield 19, 0
    if variables > MOST_VARIABLES:
        yield 20, 2
    if functions > MOST_FUNCTIONS:
        yield 20, 4
    if entries > MOST_ENTRIES:
        yield 20, 6

    scopes_at = HEADER + variables
    entries_at = scopes_at + RECORD * functions
    length = entries_at + 4 * entries
    for index, offset in enumerate((HEADER, scopes_at, entries_at, length)):
        if offsets[index] != offset:
            yield 21, 8 + 2 * index
    if len(data) != length:
        yield 21, 14

    domains = data[HEADER:scopes_at]
    for variable, size in enumerate(domains):
        if not 1 <= size <= MOST_VALUES:
            yield 2, HEADER + variable
    total = 0
    for place in range(scopes_at, entries_at, RECORD):
        size, *places = data[place : place + RECORD]
        if not 1 <= size <= MOST_PLACES:
            yield 4, place
        used, unused = places[:size], places[size:]
        if any(variable >= variables for variable in used):
            yield 5, place
        if len(set(used)) < size:
            yield 6, place
        words = 1
        for variable in used:
            words *= domains[variable]
        total += words
        if words > MOST_WORDS or total > MOST_ENTRIES:
            yield 8, place
        if any(byte != UNUSED for byte in unused):
            yield 22, place
    if entries != total:
        yield 23, 6
    for place in range(entries_at, length, 4):
        (word,) = struct.unpack_from("<I", data, place)
        if not is_entry(code, word):
            yield 11, place


def is_entry(code: int, word: int) -> bool:
    """Whether a word is an entry of the scale."""
    if code == 1:
        return -1_000_000 <= signed(word, 32) <= 1_000_000
    if code == 3:
        return all(-1000 <= signed(half, 16) <= 1000 for half in (word & 0xFFFF, word >> 16))
    return word <= 1000


def signed(number: int, bits: int) -> int:
    """A number of so many bits, read as two's complement."""
    return number - (1 << bits) if number >> (bits - 1) else number


# Building files.


def build(code: int, domains: Sequence[int], scopes: Sequence[bytes], words: Sequence[int]) -> bytes:
    """A file whose header fits its sections, whatever they hold."""
    scopes_at = HEADER + len(domains)
    entries_at = scopes_at + RECORD * len(scopes)
    length = entries_at + 4 * len(words)
    counts = len(domains), len(scopes), len(words)
    header = struct.pack("<8H", code, *counts, HEADER, scopes_at, entries_at, length)
    entries = b"".join(struct.pack("<I", word & 0xFFFFFFFF) for word in words)
    return header + bytes(domains) + b"".join(scopes) + entries


def scope(*variables: int) -> bytes:
    """A scope record without a fault of its own."""
    return bytes((len(variables), *variables)).ljust(RECORD, bytes((UNUSED,)))


def put(data: bytes, place: int, *values: int) -> bytes:
    """The file with other bytes from a place on."""
    return data[:place] + bytes(values) + data[place + len(values) :]


def put16(data: bytes, place: int, value: int) -> bytes:
    """The file with another 16-bit number at a place."""
    return put(data, place, value & 0xFF, value >> 8)


def insert(data: bytes, place: int) -> bytes:
    """The file with one more byte at a place."""
    return data[:place] + b"\0" + data[place:]


def remove(data: bytes, place: int) -> bytes:
    """The file without the byte at a place."""
    return data[:place] + data[place + 1 :]


def one(code: int, word: int) -> bytes:
    """One variable of size 1 and one function of one word, which is at 22."""
    return build(code, [1], [scope(0)], [word])


def ranked(first: int, second: int) -> int:
    """A word of the ranked scale."""
    return first & 0xFFFF | (second & 0xFFFF) << 16


def lone(*record: int) -> bytes:
    """Five variables of size 2 and one function of any record, which is at 21; 16 words."""
    return build(1, [2] * 5, [bytes(record)], range(16))


def table(*sizes: int, words: int) -> bytes:
    """One function over variables of these sizes, with any number of words."""
    return build(2, sizes, [scope(*range(len(sizes)))], [7] * words)


def full(*records: bytes, words: int) -> bytes:
    """Four tables of 1,024 words, then more records from 40 on, with any number of words."""
    return build(4, [16, 16, 4, 1], [scope(0, 1, 2)] * 4 + list(records), [999] * words)


# Domains at 16, scopes at 18 and 23, words at 28, 32, 36, 40 and 44, 48, 52, 56; 60 bytes.
PAIR = build(1, [2, 2], [scope(0, 1), scope(0, 1)], [0, 4, 1, 2, 3, 0, 0, 5])

# Domains at 16 to 19, scopes at 20, 25, 30, words from 35 on; 91 bytes.
MIXED = build(2, [2, 16, 16, 5], [scope(0), scope(0, 3), scope(0)], range(1, 15))

# One word for each of 64 functions: domains at 16, scopes at 80, the last at 395; 656 bytes.
MANY = build(1, [1] * 64, [scope(f) for f in range(64)], range(64))

# Nothing but a header.
BARE = build(1, [], [], [])

# Two variables and nothing more; 18 bytes.
DOMAINS = build(1, [2, 2], [], [])

# Two variables and a scope, but no words; 23 bytes.
SCOPES = build(1, [2, 2], [scope(0, 1)], [])

# The most of everything: domains at 16, scopes at 80, words at 400; 16,784 bytes.
LONGEST = build(
    1,
    [8] * 64,
    [scope(f, (f + 1) % 64) for f in range(64)],
    [i * 7919 % 2_000_001 - 1_000_000 for i in range(4096)],
)


# The cases. A short answer is `refused NUMBER PLACE`, or `accepted` with the numbers
# of scale, variables, functions, entries, links and bytes.


class Case(NamedTuple):
    label: str
    data: bytes
    short_answer: str

    def answer(self) -> list[str]:
        """The lines of the answer written by hand."""
        word, *numbers = self.short_answer.split()
        if word == "refused":
            return [self.short_answer]
        return accepted(*map(int, numbers))


Rows = list[tuple[str, bytes, str]]


def accepted_files() -> Rows:
    scopes = [scope(0), scope(1, 0), scope(2, 0, 1), scope(3, 2, 1, 0)]
    return [
        ("pair", PAIR, "accepted 1 2 2 8 4 60"),
        ("mixed", MIXED, "accepted 2 4 3 14 4 91"),
        ("no variables and no functions", BARE, "accepted 1 0 0 0 0 16"),
        ("no variables and no functions in capped", put16(BARE, 0, 2), "accepted 2 0 0 0 0 16"),
        ("no variables and no functions in ranked", put16(BARE, 0, 3), "accepted 3 0 0 0 0 16"),
        ("no variables and no functions in weakest", put16(BARE, 0, 4), "accepted 4 0 0 0 0 16"),
        ("variables without functions", DOMAINS, "accepted 1 2 0 0 0 18"),
        ("one variable without functions", build(3, [5], [], []), "accepted 3 1 0 0 0 17"),
        ("64 variables without functions", build(4, [16] * 64, [], []), "accepted 4 64 0 0 0 80"),
        ("one variable and one function", one(1, 0), "accepted 1 1 1 1 1 26"),
        ("64 functions on one variable", build(2, [1], [scope(0)] * 64, range(64)), "accepted 2 1 64 64 64 593"),
        ("64 variables and 64 functions of one word", MANY, "accepted 1 64 64 64 64 656"),
        ("scopes of all four sizes", build(1, [2, 3, 1, 2], scopes, range(-13, 13)), "accepted 1 4 4 26 10 144"),
        ("last variable of 64", build(1, [2] * 64, [scope(63, 0)], range(4)), "accepted 1 64 1 4 2 101"),
        ("variable that no function uses", build(1, [2, 9, 3], [scope(0, 2)], range(6)), "accepted 1 3 1 6 2 48"),
        ("272 entries", build(4, [16, 16], [scope(0, 1), scope(1)], [5] * 272), "accepted 4 2 2 272 3 1116"),
        ("longest file", LONGEST, "accepted 1 64 64 4096 128 16784"),
    ]


def short_files() -> Rows:
    return [
        ("empty input", b"", "refused 18 0"),
        ("one byte", PAIR[:1], "refused 18 0"),
        ("two bytes", PAIR[:2], "refused 18 0"),
        ("fifteen bytes", PAIR[:15], "refused 18 0"),
        ("fifteen bytes of nothing but a header", BARE[:15], "refused 18 0"),
        ("fifteen bytes and bad code", put16(PAIR, 0, 5)[:15], "refused 18 0"),
        ("fifteen bytes and too many variables", put16(PAIR, 2, 65)[:15], "refused 18 0"),
        ("fifteen bytes and too many functions", put16(PAIR, 4, 65)[:15], "refused 18 0"),
        ("fifteen bytes and too many entries", put16(PAIR, 6, 4097)[:15], "refused 18 0"),
        ("fifteen bytes and bad offset of domains", put16(PAIR, 8, 17)[:15], "refused 18 0"),
        ("fifteen bytes and bad offset of scopes", put16(PAIR, 10, 17)[:15], "refused 18 0"),
        ("fifteen bytes and bad offset of entries", put16(PAIR, 12, 17)[:15], "refused 18 0"),
        ("fifteen bytes of 0", b"\0" * 15, "refused 18 0"),
        ("fifteen bytes of 255", b"\xff" * 15, "refused 18 0"),
        ("sixteen bytes of 0", b"\0" * 16, "refused 19 0"),
        ("sixteen bytes of 255", b"\xff" * 16, "refused 19 0"),
        ("sixteen bytes with bad code", put16(BARE, 0, 5), "refused 19 0"),
        ("sixteen bytes with length 0", put16(BARE, 14, 0), "refused 21 14"),
    ]


def scale_codes() -> Rows:
    return [
        ("pair with code 0", put16(PAIR, 0, 0), "refused 19 0"),
        ("pair with code 2", put16(PAIR, 0, 2), "accepted 2 2 2 8 4 60"),
        ("pair with code 3", put16(PAIR, 0, 3), "accepted 3 2 2 8 4 60"),
        ("pair with code 4", put16(PAIR, 0, 4), "accepted 4 2 2 8 4 60"),
        ("pair with code 5", put16(PAIR, 0, 5), "refused 19 0"),
        ("pair with code 255", put16(PAIR, 0, 255), "refused 19 0"),
        ("pair with code 256", put16(PAIR, 0, 256), "refused 19 0"),
        ("pair with code 257", put16(PAIR, 0, 257), "refused 19 0"),
        ("pair with code 258", put16(PAIR, 0, 258), "refused 19 0"),
        ("pair with code 259", put16(PAIR, 0, 259), "refused 19 0"),
        ("pair with code 260", put16(PAIR, 0, 260), "refused 19 0"),
        ("pair with code 1024", put16(PAIR, 0, 1024), "refused 19 0"),
        ("pair with code 32769", put16(PAIR, 0, 32769), "refused 19 0"),
        ("pair with code 65535", put16(PAIR, 0, 65535), "refused 19 0"),
    ]


def header_counts() -> Rows:
    functions65 = build(1, [1], [scope(0)] * 65, [0] * 65)
    return [
        ("65 variables", build(1, [1] * 65, [], []), "refused 20 2"),
        ("65 variables and a bad first domain", build(1, [0] + [1] * 64, [], []), "refused 20 2"),
        ("65 variables and 65 functions", build(1, [1] * 65, [scope(0)] * 65, [0] * 65), "refused 20 2"),
        ("variables 256", put16(PAIR, 2, 256), "refused 20 2"),
        ("variables 258", put16(PAIR, 2, 258), "refused 20 2"),
        ("variables 65535", put16(PAIR, 2, 65535), "refused 20 2"),
        ("variables 65535 with offset of scopes 15", put16(put16(BARE, 2, 65535), 10, 15), "refused 20 2"),
        ("65 functions", functions65, "refused 20 4"),
        ("65 functions and a bad first domain", put(functions65, 16, 17), "refused 20 4"),
        ("65 functions and a bad first scope", put(functions65, 17, 0), "refused 20 4"),
        ("functions 256", put16(PAIR, 4, 256), "refused 20 4"),
        ("functions 258", put16(PAIR, 4, 258), "refused 20 4"),
        ("functions 65535", put16(PAIR, 4, 65535), "refused 20 4"),
        ("4097 entries", full(scope(3), words=4097), "refused 20 6"),
        ("entries 4097 and no more", put16(PAIR, 6, 4097), "refused 20 6"),
        ("entries 8200", put16(PAIR, 6, 8200), "refused 20 6"),
        ("entries 16392 which is 60 bytes in 16 bits", put16(PAIR, 6, 16392), "refused 20 6"),
        ("entries 65535", put16(PAIR, 6, 65535), "refused 20 6"),
        ("no variables and one function", build(1, [], [scope(0)], [0]), "refused 5 16"),
        ("no variables and one function of scope size 0", build(1, [], [scope()], [0]), "refused 4 16"),
        ("no variables and 64 functions", build(1, [], [scope(0)] * 64, [0] * 64), "refused 5 16"),
        ("one variable too few for the offsets", put16(PAIR, 2, 1), "refused 21 10"),
        ("one variable too many for the offsets", put16(PAIR, 2, 3), "refused 21 10"),
        ("one function too few for the offsets", put16(PAIR, 4, 1), "refused 21 12"),
        ("one function too many for the offsets", put16(PAIR, 4, 3), "refused 21 12"),
        ("one entry too few for the length", put16(PAIR, 6, 7), "refused 21 14"),
        ("one entry too many for the length", put16(PAIR, 6, 9), "refused 21 14"),
        ("4096 entries in a short file", put16(PAIR, 6, 4096), "refused 21 14"),
        ("64 variables in a short file", put16(PAIR, 2, 64), "refused 21 10"),
        ("64 functions in a short file", put16(PAIR, 4, 64), "refused 21 12"),
    ]


def header_offsets() -> Rows:
    return [
        ("offset of domains 0", put16(PAIR, 8, 0), "refused 21 8"),
        ("offset of domains 15", put16(PAIR, 8, 15), "refused 21 8"),
        ("offset of domains 17", put16(PAIR, 8, 17), "refused 21 8"),
        ("offset of domains 272", put16(PAIR, 8, 272), "refused 21 8"),
        ("offset of domains 65535", put16(PAIR, 8, 65535), "refused 21 8"),
        ("offset of domains 4096 with its bytes swapped", put16(PAIR, 8, 4096), "refused 21 8"),
        ("offset of scopes 0", put16(PAIR, 10, 0), "refused 21 10"),
        ("offset of scopes 17", put16(PAIR, 10, 17), "refused 21 10"),
        ("offset of scopes 19", put16(PAIR, 10, 19), "refused 21 10"),
        ("offset of scopes 274", put16(PAIR, 10, 274), "refused 21 10"),
        ("offset of scopes 65535", put16(PAIR, 10, 65535), "refused 21 10"),
        ("offset of entries 0", put16(PAIR, 12, 0), "refused 21 12"),
        ("offset of entries 27", put16(PAIR, 12, 27), "refused 21 12"),
        ("offset of entries 29", put16(PAIR, 12, 29), "refused 21 12"),
        ("offset of entries 284", put16(PAIR, 12, 284), "refused 21 12"),
        ("offset of entries 65535", put16(PAIR, 12, 65535), "refused 21 12"),
        ("length field 0", put16(PAIR, 14, 0), "refused 21 14"),
        ("length field 59", put16(PAIR, 14, 59), "refused 21 14"),
        ("length field 61", put16(PAIR, 14, 61), "refused 21 14"),
        ("length field 316", put16(PAIR, 14, 316), "refused 21 14"),
        ("length field 65535", put16(PAIR, 14, 65535), "refused 21 14"),
        ("length field 59 and true length 59", put16(PAIR, 14, 59)[:59], "refused 21 14"),
        ("length field 61 and true length 61", put16(PAIR, 14, 61) + b"\0", "refused 21 14"),
        ("offset of domains in a header alone", put16(BARE, 8, 0), "refused 21 8"),
        ("offset of scopes in a header alone", put16(BARE, 10, 17), "refused 21 10"),
        ("offset of entries in a header alone", put16(BARE, 12, 17), "refused 21 12"),
        ("length field in a header alone", put16(BARE, 14, 17), "refused 21 14"),
    ]


def true_lengths() -> Rows:
    bad_word = put(PAIR, 28, 255, 255, 255, 127)
    return [
        ("pair cut at the end of the header", PAIR[:16], "refused 21 14"),
        ("pair cut one byte after the header", PAIR[:17], "refused 21 14"),
        ("pair cut at the end of the domains", PAIR[:18], "refused 21 14"),
        ("pair cut one byte after the domains", PAIR[:19], "refused 21 14"),
        ("pair cut one byte before the end of the scopes", PAIR[:27], "refused 21 14"),
        ("pair cut at the end of the scopes", PAIR[:28], "refused 21 14"),
        ("pair cut one byte after the scopes", PAIR[:29], "refused 21 14"),
        ("pair cut one word short", PAIR[:56], "refused 21 14"),
        ("pair cut one byte short", PAIR[:59], "refused 21 14"),
        ("pair one byte long", PAIR + b"\0", "refused 21 14"),
        ("pair one word long", PAIR + b"\0\0\0\0", "refused 21 14"),
        ("pair with a line feed after it", PAIR + b"\n", "refused 21 14"),
        ("pair twice", PAIR + PAIR, "refused 21 14"),
        ("pair without the last byte of the header", remove(PAIR, 15), "refused 21 14"),
        ("pair with one more byte after the header", insert(PAIR, 16), "refused 21 14"),
        ("pair without the last byte of the domains", remove(PAIR, 17), "refused 21 14"),
        ("pair with one more byte after the domains", insert(PAIR, 18), "refused 21 14"),
        ("pair without the last byte of the scopes", remove(PAIR, 27), "refused 21 14"),
        ("pair with one more byte after the scopes", insert(PAIR, 28), "refused 21 14"),
        ("header alone one byte long", BARE + b"\0", "refused 21 14"),
        ("domains alone one byte short", DOMAINS[:-1], "refused 21 14"),
        ("domains alone one byte long", DOMAINS + b"\0", "refused 21 14"),
        ("scopes without words one byte short", SCOPES[:-1], "refused 21 14"),
        ("scopes without words", SCOPES, "refused 23 6"),
        ("scopes without words one byte long", SCOPES + b"\0", "refused 21 14"),
        ("one word one byte short", one(1, 0)[:-1], "refused 21 14"),
        ("one word one byte long", one(1, 0) + b"\0", "refused 21 14"),
        ("pair one byte short with a bad domain", put(PAIR, 16, 0)[:59], "refused 21 14"),
        ("pair one byte long with a bad scope", put(PAIR, 18, 0) + b"\0", "refused 21 14"),
        ("pair one byte long with a bad word", bad_word + b"\0", "refused 21 14"),
        ("longest file one byte short", LONGEST[:-1], "refused 21 14"),
        ("longest file one byte long", LONGEST + b"\0", "refused 21 14"),
        ("longest file two bytes long", LONGEST + b"\0\0", "refused 21 14"),
        ("pair followed by 17000 bytes", PAIR + b"\0" * 17000, "refused 21 14"),
        ("bad offset of entries followed by 17000 bytes", put16(PAIR, 12, 0) + b"\0" * 17000, "refused 21 12"),
    ]


def domain_sizes() -> Rows:
    return [
        ("domain size 0", build(1, [0], [], []), "refused 2 16"),
        ("domain size 1", build(1, [1], [], []), "accepted 1 1 0 0 0 17"),
        ("domain size 16", build(1, [16], [], []), "accepted 1 1 0 0 0 17"),
        ("domain size 17", build(1, [17], [], []), "refused 2 16"),
        ("domain size 128", build(1, [128], [], []), "refused 2 16"),
        ("domain size 255", build(1, [255], [], []), "refused 2 16"),
        ("domain size 0 with a table of no words", table(0, words=0), "refused 2 16"),
        ("domain size 1 with a table", table(1, words=1), "accepted 2 1 1 1 1 26"),
        ("domain size 16 with a table", table(16, words=16), "accepted 2 1 1 16 1 86"),
        ("domain size 17 with a table", table(17, words=17), "refused 2 16"),
        ("domain size 255 with a table", table(255, words=255), "refused 2 16"),
        ("bad domain of the second variable", put(PAIR, 17, 0), "refused 2 17"),
        ("bad domains of both variables", put(PAIR, 16, 17, 0), "refused 2 16"),
        ("bad domains after a good one", build(1, [2, 255, 0], [], []), "refused 2 17"),
        ("bad domain of the last of 64 variables", build(1, [1] * 63 + [17], [], []), "refused 2 79"),
        ("bad domain that no function uses", build(1, [2, 0], [scope(0)], [1, 2]), "refused 2 17"),
        ("bad domain and bad scope before its use", build(1, [2, 0], [scope(0, 0)], range(4)), "refused 2 17"),
        ("domain sizes that do not fit the entries", put(PAIR, 16, 3), "refused 23 6"),
    ]


def scope_sizes() -> Rows:
    return [
        ("scope size 0", lone(0, 255, 255, 255, 255), "refused 4 21"),
        ("scope size 0 with four variables", lone(0, 0, 1, 2, 3), "refused 4 21"),
        ("scope size 1", build(1, [2] * 5, [scope(4)], range(2)), "accepted 1 5 1 2 1 34"),
        ("scope size 2", build(1, [2] * 5, [scope(4, 0)], range(4)), "accepted 1 5 1 4 2 42"),
        ("scope size 3", build(1, [2] * 5, [scope(4, 0, 3)], range(8)), "accepted 1 5 1 8 3 58"),
        ("scope size 4", lone(4, 0, 1, 2, 3), "accepted 1 5 1 16 4 90"),
        ("scope size 5", lone(5, 0, 1, 2, 3), "refused 4 21"),
        ("scope size 6", lone(6, 0, 1, 2, 3), "refused 4 21"),
        ("scope size 128", lone(128, 0, 1, 2, 3), "refused 4 21"),
        ("scope size 255", lone(255, 0, 1, 2, 3), "refused 4 21"),
        ("scope size 255 and nothing else", lone(255, 255, 255, 255, 255), "refused 4 21"),
        ("scope size 0 in the second record", put(PAIR, 23, 0), "refused 4 23"),
        ("scope size 5 in the second record", put(PAIR, 23, 5), "refused 4 23"),
        ("scope size 0 in the last of 64 records", put(MANY, 395, 0), "refused 4 395"),
    ]


def scope_variables() -> Rows:
    return [
        ("unknown variable is the number of variables", lone(4, 0, 1, 2, 5), "refused 5 21"),
        ("unknown variable 64 of 64", put(MANY, 396, 64), "refused 5 395"),
        ("unknown variable 128", lone(4, 128, 1, 2, 3), "refused 5 21"),
        ("unknown variable 254", lone(4, 0, 254, 2, 3), "refused 5 21"),
        ("unknown variable 255 in a used place", lone(4, 0, 1, 2, 255), "refused 5 21"),
        ("unknown variable at place 0", lone(4, 5, 1, 2, 3), "refused 5 21"),
        ("unknown variable at place 1", lone(4, 0, 5, 2, 3), "refused 5 21"),
        ("unknown variable at place 2", lone(4, 0, 1, 5, 3), "refused 5 21"),
        ("unknown variable in all places", lone(4, 255, 255, 255, 255), "refused 5 21"),
        ("unknown variable in the second record", put(PAIR, 25, 2), "refused 5 23"),
        ("unknown variable in both records", put(put(PAIR, 25, 2), 20, 2), "refused 5 18"),
        ("variable twice at places 0 and 1", lone(4, 3, 3, 1, 2), "refused 6 21"),
        ("variable twice at places 0 and 2", lone(4, 3, 1, 3, 2), "refused 6 21"),
        ("variable twice at places 0 and 3", lone(4, 3, 1, 2, 3), "refused 6 21"),
        ("variable twice at places 1 and 2", lone(4, 1, 3, 3, 2), "refused 6 21"),
        ("variable twice at places 1 and 3", lone(4, 1, 3, 2, 3), "refused 6 21"),
        ("variable twice at places 2 and 3", lone(4, 1, 2, 3, 3), "refused 6 21"),
        ("variable in all places", lone(4, 0, 0, 0, 0), "refused 6 21"),
        ("variable twice in a scope of 2", put(PAIR, 19, 1, 1), "refused 6 18"),
        ("variable twice in the second record", put(PAIR, 24, 0, 0), "refused 6 23"),
        ("variable twice in the last of 64 records", put(MANY, 395, 2, 63, 63), "refused 6 395"),
        ("same scope in both records", put(PAIR, 24, 1, 0), "accepted 1 2 2 8 4 60"),
    ]


def unused_places() -> Rows:
    def small(*record: int, words: int) -> bytes:
        return build(1, [2, 2, 2], [scope(0), bytes(record)], range(2 + words))

    wide = table(16, 16, 16, 16, words=0)
    return [
        ("size 1 and place 1 is not 255", small(1, 0, 2, 255, 255, words=2), "refused 22 24"),
        ("size 1 and place 2 is not 255", small(1, 0, 255, 2, 255, words=2), "refused 22 24"),
        ("size 1 and place 3 is not 255", small(1, 0, 255, 255, 2, words=2), "refused 22 24"),
        ("size 2 and place 2 is not 255", small(2, 0, 1, 2, 255, words=4), "refused 22 24"),
        ("size 2 and place 3 is not 255", small(2, 0, 1, 255, 2, words=4), "refused 22 24"),
        ("size 3 and place 3 is not 255", small(3, 0, 1, 2, 0, words=8), "refused 22 24"),
        ("unused place is 0", small(1, 1, 0, 255, 255, words=2), "refused 22 24"),
        ("unused place is 254", small(1, 1, 254, 255, 255, words=2), "refused 22 24"),
        ("unused places are known variables", small(1, 0, 1, 2, 1, words=2), "refused 22 24"),
        ("unused places are the used variable", small(1, 0, 0, 0, 0, words=2), "refused 22 24"),
        ("unused places are unknown variables", small(1, 0, 3, 200, 254, words=2), "refused 22 24"),
        ("unused place of the first record", put(PAIR, 22, 1), "refused 22 18"),
        ("unused place of the second record", put(PAIR, 26, 0), "refused 22 23"),
        ("unused place of the last of 64 records", put(MANY, 399, 0), "refused 22 395"),
        ("unused places would make a table of 65536 words", put(wide, 20, 1), "refused 22 20"),
    ]


def table_sizes() -> Rows:
    over_later = [scope(0, 1), scope(0, 1, 2)]
    return [
        ("table of 1024 words", table(16, 16, 4, words=1024), "accepted 2 3 1 1024 3 4120"),
        ("table of 1024 words at four places", table(4, 8, 8, 4, words=1024), "accepted 2 4 1 1024 4 4121"),
        ("table of 1014 words", table(13, 6, 13, words=1014), "accepted 2 3 1 1014 3 4080"),
        ("table of 1029 words", table(7, 7, 3, 7, words=1029), "refused 8 20"),
        ("table of 1280 words", table(16, 16, 5, words=1280), "refused 8 19"),
        ("table of 1280 words and a bad word", put(table(16, 16, 5, words=1280), 24, 255, 255), "refused 8 19"),
        ("table of 1280 words and no words", table(16, 16, 5, words=0), "refused 8 19"),
        ("table of 1280 words and 1024 words", table(16, 16, 5, words=1024), "refused 8 19"),
        ("table of 2048 words and no words", table(16, 16, 4, 2, words=0), "refused 8 20"),
        ("table of 4096 words and no words", table(16, 16, 16, words=0), "refused 8 19"),
        ("table of 65536 words and no words", table(16, 16, 16, 16, words=0), "refused 8 20"),
        ("table too large in the second record", build(1, [5, 16, 16], over_later, [1] * 80), "refused 8 24"),
        ("1024 words and no words", table(16, 16, 4, words=0), "refused 23 6"),
        ("all tables 4096 words", full(words=4096), "accepted 4 4 4 4096 12 16424"),
        ("all tables 4096 words and no words", full(words=0), "refused 23 6"),
        ("all tables 4097 words and 4096 words", full(scope(3), words=4096), "refused 8 40"),
        ("all tables 4097 words and no words", full(scope(3), words=0), "refused 8 40"),
        ("all tables 4100 words and no words", full(scope(2), words=0), "refused 8 40"),
        ("all tables 5120 words and no words", full(scope(0, 1, 2), words=0), "refused 8 40"),
        ("all tables 4097 words and one word", full(scope(3), words=1), "refused 8 40"),
        (
            "all tables 4160 words by the last of 64",
            build(1, [5, 13], [scope(0, 1)] * 64, []),
            "refused 8 333",
        ),
        (
            "all tables 4096 words by the last of 64",
            build(1, [5, 13, 1], [scope(0, 1)] * 63 + [scope(2)], []),
            "refused 23 6",
        ),
    ]


def two_faults_in_one_record() -> Rows:
    def second(*record: int) -> bytes:
        return put(MIXED, 25, *record)

    return [
        ("size 0 with unknown variables", second(0, 9, 9, 9, 9), "refused 4 25"),
        ("size 0 with unused places not 255", second(0, 0, 255, 255, 255), "refused 4 25"),
        ("size 5 with an unknown variable", second(5, 4, 1, 2, 3), "refused 4 25"),
        ("size 5 with a variable twice", second(5, 0, 0, 1, 2), "refused 4 25"),
        ("size 5 with a large table", second(5, 0, 1, 2, 3), "refused 4 25"),
        ("size 5 with every other fault", second(5, 9, 1, 1, 2), "refused 4 25"),
        ("unknown variable twice", second(2, 4, 4, 255, 255), "refused 5 25"),
        ("unknown variable after a variable twice", second(3, 0, 0, 4, 255), "refused 5 25"),
        ("unknown variable before a variable twice", second(3, 4, 0, 0, 255), "refused 5 25"),
        ("unknown variable with a large table", second(4, 1, 2, 3, 4), "refused 5 25"),
        ("unknown variable with an unused place not 255", second(1, 4, 0, 255, 255), "refused 5 25"),
        ("unknown variable twice with an unused place not 255", second(2, 4, 4, 255, 0), "refused 5 25"),
        ("variable twice with a large table", second(4, 1, 2, 3, 1), "refused 6 25"),
        ("variable twice with a large table at three places", second(3, 1, 2, 1, 255), "refused 6 25"),
        ("variable twice with an unused place not 255", second(2, 0, 0, 255, 0), "refused 6 25"),
        ("variable twice with a large table and an unused place not 255", second(3, 1, 1, 2, 0), "refused 6 25"),
        ("large table with an unused place not 255", second(3, 1, 2, 3, 0), "refused 8 25"),
        ("large table with an unused place that is in the scope", second(3, 1, 2, 3, 1), "refused 8 25"),
        ("large table with an unused place that is unknown", second(3, 1, 2, 3, 4), "refused 8 25"),
        ("large sum with size 0", full(bytes((0, 3, 255, 255, 255)), words=0), "refused 4 40"),
        ("large sum with an unknown variable", full(scope(3, 4), words=0), "refused 5 40"),
        ("large sum with a variable twice", full(scope(3, 3), words=0), "refused 6 40"),
        ("large sum with a large table", full(scope(0, 1, 2, 3), words=0), "refused 8 40"),
        ("large sum with an unused place not 255", full(bytes((1, 3, 0, 255, 255)), words=0), "refused 8 40"),
        ("large sum before size 0 in the next record", full(scope(3), scope(), words=0), "refused 8 40"),
        ("large sum before an unknown variable in the next record", full(scope(3), scope(4), words=0), "refused 8 40"),
        ("unused place not 255 before a large sum", put(full(scope(3), words=0), 39, 3), "refused 22 35"),
    ]


def entry_counts() -> Rows:
    scopes = [scope(0, 1), scope(0, 1)]

    def pair(words: Sequence[int]) -> bytes:
        return build(1, [2, 2], scopes, words)

    bad = 1_000_001
    return [
        ("one entry too low", pair([0] * 7), "refused 23 6"),
        ("one entry too high", pair([0] * 9), "refused 23 6"),
        ("entries 0 but two tables", pair([]), "refused 23 6"),
        ("entries of one table of two", pair([0] * 4), "refused 23 6"),
        ("entries of three tables of two", pair([0] * 12), "refused 23 6"),
        ("entries 264 instead of 8", pair([0] * 264), "refused 23 6"),
        ("entries too low and a bad first word", pair([bad] + [0] * 6), "refused 23 6"),
        ("entries too low and a bad last word", pair([0] * 6 + [bad]), "refused 23 6"),
        ("entries too high and a bad first word", pair([bad] + [0] * 8), "refused 23 6"),
        ("entries too high and the last word bad", pair([0] * 8 + [bad]), "refused 23 6"),
        ("one entry but no functions", build(1, [2, 2], [], [0]), "refused 23 6"),
        ("one entry but nothing else", build(1, [], [], [0]), "refused 23 6"),
        ("one bad entry but nothing else", build(1, [], [], [bad]), "refused 23 6"),
        ("entries too low after a bad domain", put(pair([0] * 7), 17, 17), "refused 2 17"),
        ("entries too high after a bad last record", put(pair([0] * 9), 27, 1), "refused 22 23"),
    ]


def entry_limits() -> Rows:
    least_and_most = [-1_000_000, 1_000_000, -1, 0]
    capped = build(2, [3, 2], [scope(0, 1)], [0, 1000, 1001, 7, 1002, 8])
    return [
        ("points 1000000", one(1, 1_000_000), "accepted 1 1 1 1 1 26"),
        ("points 1000001", one(1, 1_000_001), "refused 11 22"),
        ("points minus 1000000", one(1, -1_000_000), "accepted 1 1 1 1 1 26"),
        ("points minus 1000001", one(1, -1_000_001), "refused 11 22"),
        ("points minus 1", one(1, -1), "accepted 1 1 1 1 1 26"),
        ("points 1001", one(1, 1001), "accepted 1 1 1 1 1 26"),
        ("points 65536", one(1, 65536), "accepted 1 1 1 1 1 26"),
        ("points greatest word", one(1, 0x7FFFFFFF), "refused 11 22"),
        ("points least word", one(1, 0x80000000), "refused 11 22"),
        ("points least and most", build(1, [4], [scope(0)], least_and_most), "accepted 1 1 1 4 1 38"),
        ("capped 0", one(2, 0), "accepted 2 1 1 1 1 26"),
        ("capped 1000", one(2, 1000), "accepted 2 1 1 1 1 26"),
        ("capped 1001", one(2, 1001), "refused 11 22"),
        ("capped 65536", one(2, 65536), "refused 11 22"),
        ("capped 66536", one(2, 66536), "refused 11 22"),
        ("capped minus 1", one(2, -1), "refused 11 22"),
        ("capped least word", one(2, 0x80000000), "refused 11 22"),
        ("capped word with its bytes swapped", one(2, 0x01000000), "refused 11 22"),
        ("ranked first 1000", one(3, ranked(1000, 0)), "accepted 3 1 1 1 1 26"),
        ("ranked first 1001", one(3, ranked(1001, 0)), "refused 11 22"),
        ("ranked first minus 1000", one(3, ranked(-1000, 0)), "accepted 3 1 1 1 1 26"),
        ("ranked first minus 1001", one(3, ranked(-1001, 0)), "refused 11 22"),
        ("ranked first 32767", one(3, ranked(32767, 0)), "refused 11 22"),
        ("ranked first minus 32768", one(3, ranked(-32768, 0)), "refused 11 22"),
        ("ranked second 1000", one(3, ranked(0, 1000)), "accepted 3 1 1 1 1 26"),
        ("ranked second 1001", one(3, ranked(0, 1001)), "refused 11 22"),
        ("ranked second minus 1000", one(3, ranked(0, -1000)), "accepted 3 1 1 1 1 26"),
        ("ranked second minus 1001", one(3, ranked(0, -1001)), "refused 11 22"),
        ("ranked second 32767", one(3, ranked(0, 32767)), "refused 11 22"),
        ("ranked second minus 32768", one(3, ranked(0, -32768)), "refused 11 22"),
        ("ranked both 1000", one(3, ranked(1000, 1000)), "accepted 3 1 1 1 1 26"),
        ("ranked both minus 1000", one(3, ranked(-1000, -1000)), "accepted 3 1 1 1 1 26"),
        ("ranked 1000 and minus 1000", one(3, ranked(1000, -1000)), "accepted 3 1 1 1 1 26"),
        ("ranked minus 1000 and 1000", one(3, ranked(-1000, 1000)), "accepted 3 1 1 1 1 26"),
        ("ranked both 1001", one(3, ranked(1001, 1001)), "refused 11 22"),
        ("ranked both minus 1", one(3, 0xFFFFFFFF), "accepted 3 1 1 1 1 26"),
        ("weakest 0", one(4, 0), "accepted 4 1 1 1 1 26"),
        ("weakest 1000", one(4, 1000), "accepted 4 1 1 1 1 26"),
        ("weakest 1001", one(4, 1001), "refused 11 22"),
        ("weakest 65536", one(4, 65536), "refused 11 22"),
        ("weakest 66536", one(4, 66536), "refused 11 22"),
        ("weakest minus 1", one(4, -1), "refused 11 22"),
        ("weakest least word", one(4, 0x80000000), "refused 11 22"),
        ("bad first word", put(PAIR, 28, 0, 0, 0, 128), "refused 11 28"),
        ("bad last word of the first table", put(PAIR, 40, 0, 0, 0, 128), "refused 11 40"),
        ("bad first word of the second table", put(PAIR, 44, 0, 0, 0, 128), "refused 11 44"),
        ("bad last word", put(PAIR, 56, 0, 0, 0, 128), "refused 11 56"),
        ("bad first and last word", put(put(PAIR, 28, 0, 0, 0, 128), 56, 0, 0, 0, 128), "refused 11 28"),
        ("two bad words in capped", capped, "refused 11 31"),
        ("two bad words in weakest", put16(capped, 0, 4), "refused 11 31"),
        ("two bad words in ranked", put16(capped, 0, 3), "refused 11 31"),
        ("words of capped are good points", put16(capped, 0, 1), "accepted 1 2 1 6 2 47"),
        ("bad last word of the longest file", put(LONGEST, 16780, 0, 0, 0, 128), "refused 11 16780"),
    ]


# Two faults at a time. Each fault is one change of MIXED.


class Fault(NamedTuple):
    name: str
    stage: int
    place: int
    bytes_there: tuple[int, ...]
    short_answer: str

    def applied(self, data: bytes) -> bytes:
        return put(data, self.place, *self.bytes_there)


# The order of the tests; the tests of one record share a stage.
FAULTS = [
    Fault("bad code", 1, 0, (5, 0), "refused 19 0"),
    Fault("too many variables", 2, 2, (65, 0), "refused 20 2"),
    Fault("too many functions", 3, 4, (65, 0), "refused 20 4"),
    Fault("too many entries", 4, 6, (1, 16), "refused 20 6"),
    Fault("bad offset of domains", 5, 8, (17, 0), "refused 21 8"),
    Fault("bad offset of scopes", 6, 10, (16, 0), "refused 21 10"),
    Fault("bad offset of entries", 7, 12, (34, 0), "refused 21 12"),
    Fault("bad length field", 8, 14, (90, 0), "refused 21 14"),
    Fault("byte after the end", 9, 91, (0,), "refused 21 14"),
    Fault("bad domain", 10, 17, (17,), "refused 2 17"),
    Fault("bad scope size", 11, 25, (0, 0, 3, 255, 255), "refused 4 25"),
    Fault("unknown variable", 11, 25, (2, 4, 3, 255, 255), "refused 5 25"),
    Fault("variable twice", 11, 25, (2, 3, 3, 255, 255), "refused 6 25"),
    Fault("large table", 11, 25, (3, 1, 2, 3, 255), "refused 8 25"),
    Fault("unused place not 255", 11, 25, (2, 0, 3, 255, 0), "refused 22 25"),
    Fault("entries do not fit the scopes", 12, 30, (1, 3), "refused 23 6"),
    Fault("bad word", 13, 47, (233, 3), "refused 11 47"),
]


def single_faults() -> Rows:
    return [(f"only {fault.name}", fault.applied(MIXED), fault.short_answer) for fault in FAULTS]


def fault_pairs() -> Rows:
    """Each fault together with each fault of a later stage: the earlier one is the answer."""
    return [
        (f"{first.name} before {later.name}", first.applied(later.applied(MIXED)), first.short_answer)
        for first in FAULTS
        for later in FAULTS
        if first.stage < later.stage
    ]


# Number, name and record of each test of a record of MIXED, in the order of the tests.
RECORD_FAULTS = [
    (4, "bad scope size", bytes((5, 0, 3, 255, 255))),
    (5, "unknown variable", scope(0, 4)),
    (6, "variable twice", scope(0, 0)),
    (8, "large table", scope(1, 2, 3)),
    (22, "unused place not 255", bytes((1, 0, 255, 1, 255))),
]


def record_pairs() -> Rows:
    """Each fault of a record with each fault of the next record: the first record is the answer."""
    return [
        (
            f"{name} in record {record} before {later_name} in record {record + 1}",
            put(MIXED, place, *fault, *later_fault),
            f"refused {number} {place}",
        )
        for record, place in ((0, 20), (1, 25))
        for number, name, fault in RECORD_FAULTS
        for _, later_name, later_fault in RECORD_FAULTS
    ]


GROUPS = [
    accepted_files,
    short_files,
    scale_codes,
    header_counts,
    header_offsets,
    true_lengths,
    domain_sizes,
    scope_sizes,
    scope_variables,
    unused_places,
    table_sizes,
    two_faults_in_one_record,
    entry_counts,
    entry_limits,
    single_faults,
    fault_pairs,
    record_pairs,
]


# Checking and writing.


def all_cases() -> list[Case]:
    return [Case(*row) for group in GROUPS for row in group()]


def case_complaints(cases: list[Case]) -> Iterator[str]:
    """What is wrong with the cases themselves."""
    labels: set[str] = set()
    for case in cases:
        if not re.fullmatch("[a-z0-9 ]{1,100}", case.label):
            yield f"{case.label}: not a label"
        if case.label in labels:
            yield f"{case.label}: label stands twice"
        labels.add(case.label)
        answer = inspect(case.data)
        if answer != case.answer():
            yield f"{case.label}: inspect answers {answer}, by hand {case.short_answer}"


def noted_answers(note: str) -> dict[str, list[str]]:
    """The answer that the note of the examples gives for each file."""
    sections = re.findall(r"^## (\S+)$.*?^```\n(.*?)^```$", note, re.MULTILINE | re.DOTALL)
    return {name: answer.splitlines() for name, answer in sections}


def example_complaints() -> Iterator[str]:
    """Where the examples and their note differ."""
    noted = noted_answers((EXAMPLES / "README.md").read_text())
    present = {path.name: path for path in EXAMPLES.glob("*.problem")}
    for name in sorted(noted.keys() ^ present.keys()):
        yield f"examples/{name}: not both a file and in the note"
    for name in sorted(noted.keys() & present.keys()):
        answer = inspect(present[name].read_bytes())
        if answer != noted[name]:
            yield f"examples/{name}: inspect answers {answer}, the note says {noted[name]}"


def case_files(cases: list[Case]) -> dict[Path, bytes]:
    """The two case files and what they hold."""
    questions = [f"# {case.label}\n{case.data.hex()}\n" for case in cases]
    answers = ["\n".join((f"# {case.label}", *case.answer())) + "\n" for case in cases]
    return {
        CASES / "stdin": "".join(questions).encode("ascii"),
        CASES / "stdout": "".join(answers).encode("ascii"),
    }


def file_complaints(files: dict[Path, bytes]) -> Iterator[str]:
    """Which case files differ from what they should hold."""
    for path, content in files.items():
        if not path.is_file() or path.read_bytes() != content:
            yield f"{path.relative_to(ROOT)}: differs, run with --write"


def main(arguments: list[str]) -> int:
    if arguments not in ([], ["--write"]):
        print("usage: file_cases.py [--write]", file=sys.stderr)
        return 2
    cases = all_cases()
    files = case_files(cases)
    complaints = [*case_complaints(cases), *example_complaints()]
    if arguments and not complaints:
        for path, content in files.items():
            path.parent.mkdir(parents=True, exist_ok=True)
            path.write_bytes(content)
    complaints += file_complaints(files)
    for complaint in complaints:
        print(complaint)
    if complaints:
        return 1
    print(f"{len(cases)} cases and the examples are as they should be")
    return 0


if __name__ == "__main__":
    sys.exit(main(sys.argv[1:]))
