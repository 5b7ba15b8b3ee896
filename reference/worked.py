"""What is known by hand: problems worked through, the refusals of calls, and the answers of file cases."""

from collections import Counter
from collections.abc import Callable
from dataclasses import dataclass
from pathlib import Path

from engine import Engine, sheet
from problem import Problem, Refusal
from problem_file import file_bytes, read_any, write
from samples import Shape, filled, ranked
from scales import SCALES, Value
from solving import CHOICE_CELLS, ROW, VALUE_CELLS

FILES = Path(__file__).resolve().parent.parent / "crates" / "file_cases"


class Broken(Exception):
    """Something that should hold does not."""


def hold(holds: bool, what: str) -> None:
    if not holds:
        raise Broken(what)


# Problems, each with its whole sheet.


@dataclass(frozen=True)
class Worked:
    problem: Problem
    sheet: list[str]


def laid_out(code: int, domains: list[int], scopes: list[list[int]], words: list[int]) -> Problem:
    """A problem with these words in function order."""
    return filled(code, Shape(domains, scopes), iter(words).__next__)


PAIR = laid_out(1, [2, 2], [[0, 1], [0, 1]], [0, 4, 1, 2, 3, 0, 0, 5])

WORKED = {
    "pair": Worked(
        PAIR,
        ["scale 1", "plan 1 1", "kept 3", "tree 7 0", "score 7 0", "removed 2 0", "ceiling 9 0", "share 777"],
    ),
    "two best values that do not go together": Worked(
        laid_out(1, [2, 2], [[0, 1]], [0, 5, 5, 0]),
        ["scale 1", "plan 0 1", "kept 2", "tree 5 0", "score 5 0", "removed 0 0", "ceiling 5 0", "share 1000"],
    ),
    "weakest of two": Worked(
        laid_out(4, [2], [[0], [0]], [3, 8, 5, 4]),
        ["scale 4", "plan 1", "kept 2", "tree 4 0", "score 4 0", "removed 1000 0", "ceiling 4 0", "share 1000"],
    ),
}


def check() -> Counter[str]:
    """Check everything here, and answer how much it was."""
    check_pair()
    check_standing()
    check_values()
    for label, each in WORKED.items():
        hold(sheet(file_bytes(each.problem)) == each.sheet, f"the sheet of '{label}' is the one worked out")
    return Counter({"worked problems": len(WORKED), "calls": check_calls(), "files": check_files()})


def check_pair() -> None:
    """What the two stores and the kept words hold for the pair."""
    engine, values, choices = Engine(PAIR), [(9, 9)] * VALUE_CELLS, [9] * CHOICE_CELLS
    report = engine.bounded_solve(values, choices)
    shown = {0: [3, 7], 1: [0, 2], 64: [0, 2], 65: [3, 7], 128: [2, 4, 0, 0, 5, 5]}
    right = [(0, 0)] * VALUE_CELLS
    for row, numbers in shown.items():
        right[ROW * row : ROW * row + len(numbers)] = [(number, 0) for number in numbers]
    taken = [0] * CHOICE_CELLS
    taken[1], taken[ROW + 1] = 1, 3
    hold(report.kept == (50, 0, 0, 0), "the kept words of the pair are 50 0 0 0")
    hold(values == right, "the value store holds the messages and weights of the pair")
    hold(choices == taken, "the choice store holds the choices of the pair")
    hold(len(file_bytes(PAIR)) == 60, "the file of the pair has 60 bytes")


def check_standing() -> None:
    """A report stands until a change of the problem is accepted."""
    engine = Engine.opened(SCALES[1])
    engine.read(file_bytes(PAIR))
    hold(engine.same(Engine(PAIR)), "what was read is the problem that was written")
    report = engine.bounded_solve([(0, 0)] * VALUE_CELLS, [0] * CHOICE_CELLS)
    hold(declined(engine, lambda engine: engine.set_entry(0, 4, 0)) == 10, "there is no such entry")
    hold(engine.report() == report, "the report stands after a declined call")
    engine.set_entry(0, 0, 1)
    hold(declined(engine, Engine.report) == 14, "no report stands after an accepted one")


def check_values() -> None:
    points, capped, ranks = SCALES[1], SCALES[2], SCALES[3]
    hold(points.entry(1_000_000) is not None and points.entry(1_000_001) is None, "1,000,000 is the last entry")
    hold(capped.join((600, 0), (700, 0)) == (1000, 0), "600 joined with 700 is 1,000")
    hold(capped.gap((1000, 0), (600, 0)) == (400, 0), "the gap of 1,000 over 600 is 400")
    high, low = ranks.entry(ranked(1, -5)), ranks.entry(ranked(0, 900))
    hold(high > low and ranks.gap(high, low) == (1, -905), "(1, -5) is higher than (0, 900) by (1, -905)")
    problem = laid_out(1, [2, 3], [[0, 1]], [0] * 6)
    hold(problem.index(problem.functions[0], (1, 2)) == 5, "values 1 and 2 of sizes 2 and 3 have index 5")


# Calls that are declined.


def check_calls() -> int:
    """Each number that a call on a problem can be declined by, as the first that fits."""
    most = laid_out(1, [1] * 64, [[0]] * 64, [0] * 64)
    large = laid_out(1, [16, 16, 4, 5], [], [])
    full = laid_out(4, [16, 16, 4, 1], [[0, 1, 2]] * 4, [0] * 4096)
    cells: tuple[list[Value], list[int]] = [(0, 0)] * VALUE_CELLS, [0] * CHOICE_CELLS
    empty = Problem(SCALES[1])
    rows: list[tuple[int | None, Problem, Callable[[Engine], object]]] = [
        (1, empty, lambda engine: engine.bounded_solve(cells[0][1:], cells[1])),
        (1, PAIR, lambda engine: engine.straight_solve(cells[0], cells[1][1:])),
        (12, empty, lambda engine: engine.bounded_solve(*cells)),
        (12, empty, lambda engine: engine.straight_solve(*cells)),
        (13, PAIR, lambda engine: engine.straight_solve(*cells)),
        (14, PAIR, Engine.report),
        (2, most, lambda engine: engine.add_variable(0)),
        (2, PAIR, lambda engine: engine.add_variable(17)),
        (3, most, lambda engine: engine.add_variable(16)),
        (4, most, lambda engine: engine.add_function([])),
        (4, PAIR, lambda engine: engine.add_function([9] * 5)),
        (5, PAIR, lambda engine: engine.add_function([2, 2])),
        (6, most, lambda engine: engine.add_function([0, 0])),
        (7, most, lambda engine: engine.add_function([0])),
        (8, large, lambda engine: engine.add_function([0, 1, 3])),
        (None, large, lambda engine: engine.add_function([0, 1, 2])),
        (8, full, lambda engine: engine.add_function([3])),
        (9, PAIR, lambda engine: engine.set_entry(2, 4, 1_000_001)),
        (10, PAIR, lambda engine: engine.set_entry(1, 4, 1_000_001)),
        (11, PAIR, lambda engine: engine.set_entry(1, 3, 1_000_001)),
        (15, PAIR, lambda engine: engine.score([2])),
        (16, PAIR, lambda engine: engine.score([1, 2])),
        (9, PAIR, lambda engine: engine.weight(2, 2)),
        (17, PAIR, lambda engine: engine.weight(1, 2)),
        (24, PAIR, lambda engine: engine.write(bytearray(59))),
        (None, PAIR, lambda engine: engine.write(bytearray(60))),
    ]
    for number, problem, call in rows:
        hold(declined(Engine(problem), call) == number, f"a call is answered by {number}")
    return len(rows)


def declined(engine: Engine, call: Callable[[Engine], object]) -> int | None:
    """The number by which a call is declined; the problem must then be as it was."""
    before = file_bytes(engine.problem)
    try:
        call(engine)
    except Refusal as refusal:
        hold(file_bytes(engine.problem) == before, "a declined call leaves the problem as it was")
        return refusal.number
    return None


# Files that are read elsewhere, with answers written by hand.


def check_files() -> int:
    """Every file of the file cases is declined as its answer says, or read and written back the same."""
    questions = (FILES / "stdin").read_text().split("# ")[1:]
    answers = (FILES / "stdout").read_text().split("# ")[1:]
    for question, answer in zip(questions, answers, strict=True):
        label, text = question.split("\n", 1)
        data = bytes.fromhex(text.strip())
        hold(read_back(data) == answer.splitlines()[1], f"the file '{label}' is answered right")
    return len(questions)


def read_back(data: bytes) -> str:
    try:
        problem = read_any(data)
    except Refusal as refusal:
        return f"refused {refusal.number} {refusal.place}"
    buffer = bytearray(len(data) + 3)
    hold(write(problem, buffer) == len(data) and buffer == data + b"\0\0\0", "a file is written back as it was read")
    return "accepted"
