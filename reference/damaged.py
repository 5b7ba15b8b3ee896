"""Damaged files, for each refusal of a file alone and in pairs, with the answers written by hand."""

import struct
from collections.abc import Iterator
from dataclasses import dataclass

from full import full_problem, ring
from problem_file import file_bytes, scope_record, section_offsets
from samples import NAMES, WEAKEST, Shape, filled, ranked
from scales import HIGHEST_LEVEL

LONGEST = 16_784
NO_ENTRY = bytes((255, 255, 255, 127))  # the low byte first; no entry in any of the four scales


@dataclass(frozen=True)
class Damaged:
    label: str
    data: bytes
    number: int
    place: int


# Files to damage.


def small_file(code: int, domains: list[int], scopes: list[list[int]]) -> bytes:
    """A file in which every word is the scale's neutral one."""
    word = HIGHEST_LEVEL if code == WEAKEST else 0
    return file_bytes(filled(code, Shape(domains, scopes), lambda: word))


def sound_file(code: int) -> bytes:
    """Four variables and three functions without a cycle: scopes at 20, 25 and 30, words from 35 on; 119 bytes."""
    return small_file(code, [3, 16, 16, 5], [[0], [3, 0], [0]])


def wordless(domains: list[int], scopes: list[list[int]]) -> bytes:
    """A file of points without words, whatever its scopes ask for."""
    counts = len(domains), len(scopes), 0
    header = struct.pack("<8H", 1, *counts, *section_offsets(*counts))
    return header + bytes(domains) + b"".join(scope_record(tuple(scope)) for scope in scopes)


# Damages.


@dataclass(frozen=True)
class Damage:
    """Other bytes from a place on, or none any more; and how a file with this damage alone is declined."""

    name: str
    at: int
    bytes_there: bytes | None
    number: int
    place: int

    def done_to(self, data: bytes) -> bytes:
        if self.bytes_there is None:
            return data[: self.at]
        return data[: self.at] + self.bytes_there + data[self.at + len(self.bytes_there) :]


# In the order of the tests.
HEADER_DAMAGES = [
    Damage("short", 15, None, 18, 0),
    Damage("bad code", 0, bytes((5, 0)), 19, 0),
    Damage("many variables", 2, bytes((65, 0)), 20, 2),
    Damage("many functions", 4, bytes((65, 0)), 20, 4),
    Damage("many entries", 6, bytes((1, 16)), 20, 6),
    Damage("bad place of domains", 8, bytes((17, 0)), 21, 8),
    Damage("bad place of scopes", 10, bytes((19, 0)), 21, 10),
    Damage("bad place of words", 12, bytes((36, 0)), 21, 12),
    Damage("bad length", 14, bytes((0, 0)), 21, 14),
]


def one_more_byte(length: int) -> Damage:
    return Damage("one more byte", length, bytes(1), 21, 14)


def damages(length: int) -> list[Damage]:
    """All damages to a file of this length with the counts of `sound_file`, in the order of the tests."""
    return HEADER_DAMAGES + [
        Damage("last byte away", length - 1, None, 21, 14),
        one_more_byte(length),
        Damage("no domain", 17, bytes((0,)), 2, 17),
        Damage("large domain", 18, bytes((17,)), 2, 18),
        Damage("unused place in the first scope", 20, bytes((1, 0, 255, 0, 255)), 22, 20),
        Damage("no scope", 25, bytes((0, 255, 255, 255, 255)), 4, 25),
        Damage("large scope", 25, bytes((5, 0, 1, 2, 3)), 4, 25),
        Damage("unknown variable", 25, bytes((2, 0, 4, 255, 255)), 5, 25),
        Damage("variable twice", 25, bytes((2, 3, 3, 255, 255)), 6, 25),
        Damage("large table", 25, bytes((3, 1, 2, 3, 255)), 8, 25),
        Damage("unused place", 25, bytes((2, 3, 0, 255, 1)), 22, 25),
        Damage("unknown variable in the last scope", 30, bytes((1, 255, 255, 255, 255)), 5, 30),
        Damage("other number of entries", 16, bytes((2,)), 23, 6),
        Damage("bad first word", 35, NO_ENTRY, 11, 35),
        Damage("bad last word", length - 4, NO_ENTRY, 11, length - 4),
    ]


# Damaged files.


def alone(code: int) -> Iterator[Damaged]:
    sound = sound_file(code)
    for damage in damages(len(sound)):
        yield Damaged(f"{NAMES[code]} {damage.name}", damage.done_to(sound), damage.number, damage.place)


def in_pairs(code: int) -> Iterator[Damaged]:
    """Two damages at different places: the first in the order of the tests is the answer."""
    sound = sound_file(code)
    every = damages(len(sound))
    for number, first in enumerate(every):
        for later in every[number + 1 :]:
            if first.at != later.at:
                data = first.done_to(later.done_to(sound))
                yield Damaged(f"{NAMES[code]} {first.name} and {later.name}", data, first.number, first.place)


def with_cycle() -> Iterator[Damaged]:
    """A cycle in weakest, alone, and with each damage, which is then the answer."""
    sound = small_file(WEAKEST, [3, 16, 16, 5], [[0, 3], [3, 0], [0]])
    yield Damaged("weakest cycle", sound, 13, 0)
    for damage in damages(len(sound)):
        yield Damaged(f"weakest cycle and {damage.name}", damage.done_to(sound), damage.number, damage.place)


def without_variables() -> Iterator[Damaged]:
    """No variables, alone, and with what else can be wrong in such a file, which is then the answer."""
    for code, name in NAMES.items():
        yield Damaged(f"{name} no variables", small_file(code, [], []), 12, 0)
    bare = small_file(1, [], [])
    one_word = bare[:6] + bytes((1, 0)) + bare[8:14] + bytes((20, 0)) + bytes(4)
    for damage in [*HEADER_DAMAGES, one_more_byte(len(bare))]:
        yield Damaged(f"no variables and {damage.name}", damage.done_to(bare), damage.number, damage.place)
    yield Damaged("no variables and one function", wordless([], [[0]]), 5, 16)
    yield Damaged("no variables and one word", one_word, 23, 6)


def at_the_edge() -> Iterator[Damaged]:
    """Tables of one word too many, and words just outside the entries of their scale."""
    yield Damaged("empty", b"", 18, 0)
    yield Damaged("table of 1024 words without them", wordless([16, 16, 4], [[0, 1, 2]]), 23, 6)
    yield Damaged("table of 1280 words", wordless([16, 16, 5], [[0, 1, 2]]), 8, 19)
    yield Damaged("tables of 4096 words without them", wordless([16, 16, 4], [[0, 1, 2]] * 4), 23, 6)
    yield Damaged("tables of 4097 words", wordless([16, 16, 4, 1], [[0, 1, 2]] * 4 + [[3]]), 8, 40)
    outside = {
        1: [1_000_001, -1_000_001, 2**31 - 1, -(2**31)],
        2: [1001, 65_536, -1],
        3: [ranked(1001, 0), ranked(0, 1001), ranked(-1001, 0), ranked(0, -1001), ranked(-(2**15), 2**15 - 1)],
        4: [1001, 65_536, -1],
    }
    for code, words in outside.items():
        for number, word in enumerate(words):
            data = small_file(code, [1], [[0]])[:-4] + struct.pack("<I", word & 0xFFFFFFFF)
            yield Damaged(f"{NAMES[code]} word outside {number}", data, 11, 22)


def too_long() -> Iterator[Damaged]:
    """Files of the most bytes and more."""
    longest = file_bytes(full_problem("longest", 1, ring(), "any"))
    misplaced = longest[:8] + bytes(2) + longest[10:]
    sound = sound_file(1)
    yield Damaged("longest and one more byte", longest + bytes(1), 21, 14)
    yield Damaged("longest with bad place of domains and more bytes", misplaced + bytes(99), 21, 8)
    yield Damaged("as long as the longest by bytes after the end", sound.ljust(LONGEST, b"\0"), 21, 14)
    yield Damaged("longer than the longest by bytes after the end", sound.ljust(LONGEST + 1, b"\0"), 21, 14)


def damaged_files() -> Iterator[Damaged]:
    for code in NAMES:
        yield from alone(code)
    yield from in_pairs(1)
    yield from with_cycle()
    yield from without_variables()
    yield from at_the_edge()
    yield from too_long()
