"""Reading and writing problem files, with the byte place of each refusal."""

import struct

from problem import MOST_ENTRIES, MOST_FUNCTIONS, MOST_PLACES, MOST_VARIABLES, Problem, Refusal, refuse_if
from scales import SCALES, Scale

HEADER = 16
RECORD = 5  # bytes of a scope: its size and four variables
UNUSED = 255


def read_any(data: bytes) -> Problem:
    """The problem of a file, in the scale that the file's own code names."""
    refuse_if(len(data) < HEADER, 18)
    (code,) = struct.unpack_from("<H", data)
    refuse_if(code not in SCALES, 19)
    return read(data, SCALES[code])


def read(data: bytes, scale: Scale) -> Problem:
    """The problem of a file in this scale."""
    functions_at, words_at = read_header(data, scale)
    problem = Problem(scale)
    for place in range(HEADER, functions_at):
        read_domain(problem, data, place)
    for place in range(functions_at, words_at, RECORD):
        read_scope(problem, data, place)
    words = [word for (word,) in struct.iter_unpack("<I", data[words_at:])]
    refuse_if(len(words) != problem.word_count(), 23, 6)
    for number, word in enumerate(words):
        refuse_if(scale.entry(word) is None, 11, words_at + 4 * number)
    store(problem, words)
    return problem


def read_header(data: bytes, scale: Scale) -> tuple[int, int]:
    """Where the scopes and the words begin; the file then has the length that its counts give."""
    refuse_if(len(data) < HEADER, 18)
    code, variables, functions, entries, *offsets = struct.unpack_from("<8H", data)
    refuse_if(code != scale.code, 19)
    refuse_if(variables > MOST_VARIABLES, 20, 2)
    refuse_if(functions > MOST_FUNCTIONS, 20, 4)
    refuse_if(entries > MOST_ENTRIES, 20, 6)
    right = section_offsets(variables, functions, entries)
    for number in range(4):
        refuse_if(offsets[number] != right[number], 21, 8 + 2 * number)
    refuse_if(len(data) != right[3], 21, 14)
    return right[1], right[2]


def section_offsets(variables: int, functions: int, entries: int) -> tuple[int, int, int, int]:
    """Where domains, scopes and words begin, and where the file ends."""
    functions_at = HEADER + variables
    words_at = functions_at + RECORD * functions
    return HEADER, functions_at, words_at, words_at + 4 * entries


def read_domain(problem: Problem, data: bytes, place: int) -> None:
    try:
        problem.add_variable(data[place])
    except Refusal as refusal:
        raise Refusal(refusal.number, place) from refusal


def read_scope(problem: Problem, data: bytes, place: int) -> None:
    """Add the function of one record. Of a size past four only that it is too large is looked at."""
    size, *variables = data[place : place + RECORD]
    used = variables[:size] if size <= MOST_PLACES else [UNUSED] * size
    try:
        problem.add_function(used)
    except Refusal as refusal:
        raise Refusal(refusal.number, place) from refusal
    refuse_if(any(variable != UNUSED for variable in variables[size:]), 22, place)


def store(problem: Problem, words: list[int]) -> None:
    """Fill the tables, in function order."""
    taken = 0
    for function in problem.functions:
        size = len(function.table)
        function.table[:] = words[taken : taken + size]
        taken += size


def file_bytes(problem: Problem) -> bytes:
    """The one file that holds this problem."""
    words = [word for function in problem.functions for word in function.table]
    counts = len(problem.domains), len(problem.functions), len(words)
    header = struct.pack("<8H", problem.scale.code, *counts, *section_offsets(*counts))
    scopes = b"".join(scope_record(function.scope) for function in problem.functions)
    return header + bytes(problem.domains) + scopes + struct.pack(f"<{len(words)}I", *words)


def scope_record(scope: tuple[int, ...]) -> bytes:
    return bytes((len(scope), *scope)).ljust(RECORD, bytes((UNUSED,)))


def write(problem: Problem, buffer: bytearray) -> int:
    """Put the file at the front of the buffer and answer its length; later bytes stay as they are."""
    data = file_bytes(problem)
    refuse_if(len(buffer) < len(data), 24)
    buffer[: len(data)] = data
    return len(data)
