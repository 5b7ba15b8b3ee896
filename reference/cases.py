"""Problem files with their sheets, for the program that answers many files in one run.

    python3 reference/cases.py            say whether the stored cases are what the reference answers
    python3 reference/cases.py --write    write them

In `stdin` a line that begins with '#' names a case, and the line after it is its
file in hexadecimal. In `stdout` the names are repeated, each with its answer.
"""

import re
import sys
from collections.abc import Iterator
from dataclasses import dataclass
from pathlib import Path

from damaged import damaged_files
from engine import sheet
from full import full_problems
from problem import Problem
from problem_file import file_bytes
from samples import NAMES, WORDS, long, random_problem, small_problems
from worked import WORKED

ROOT = Path(__file__).resolve().parent.parent
CASES = ROOT / "crates" / "cases"

OF_A_KIND = 13  # small problems of each scale, shape and kind of words
LONG = 2  # problems with many small tables, of each scale and kind of words


@dataclass(frozen=True)
class Case:
    label: str
    data: bytes
    known: list[str] | None = None  # the answer, where it was written by hand


def all_cases() -> list[Case]:
    problems = small_problems(OF_A_KIND) | dict(long_problems()) | full_problems()
    return [
        *(Case(label, file_bytes(each.problem), each.sheet) for label, each in WORKED.items()),
        *(Case(label, file_bytes(problem)) for label, problem in problems.items()),
        *(Case(each.label, each.data, [f"refused {each.number} {each.place}"]) for each in damaged_files()),
    ]


def long_problems() -> Iterator[tuple[str, Problem]]:
    """Problems with many variables and functions."""
    for code, name in NAMES.items():
        for words in WORDS:
            for number in range(LONG):
                label = f"{name} long {words} {number}"
                yield label, random_problem(label, code, long, words)


def complaints(cases: list[Case], answers: list[list[str]]) -> Iterator[str]:
    """What is wrong with the cases, or with the reference."""
    met: set[str] = set()
    for case, answer in zip(cases, answers, strict=True):
        if not re.fullmatch("[a-z0-9 ]{1,100}", case.label) or case.label in met:
            yield f"{case.label}: no label, or one that stands twice"
        if case.known not in (None, answer):
            yield f"{case.label}: answered {answer}, by hand {case.known}"
        met.add(case.label)


def case_files(cases: list[Case], answers: list[list[str]]) -> dict[Path, bytes]:
    """The two files of cases and what they hold."""
    asked = "".join(f"# {case.label}\n{case.data.hex()}\n" for case in cases)
    answered = "".join("\n".join((f"# {case.label}", *answer, "")) for case, answer in zip(cases, answers))
    return {CASES / "stdin": asked.encode("ascii"), CASES / "stdout": answered.encode("ascii")}


def main(arguments: list[str]) -> int:
    if arguments not in ([], ["--write"]):
        print("usage: cases.py [--write]", file=sys.stderr)
        return 2
    cases = all_cases()
    answers = [sheet(case.data) for case in cases]
    wrong = list(complaints(cases, answers))
    for path, content in case_files(cases, answers).items():
        if arguments and not wrong:
            path.parent.mkdir(parents=True, exist_ok=True)
            path.write_bytes(content)
        if not path.is_file() or path.read_bytes() != content:
            wrong.append(f"{path.relative_to(ROOT)}: differs, run with --write")
    for complaint in wrong:
        print(complaint)
    if wrong:
        return 1
    print(f"{len(cases)} cases are as the reference answers them")
    return 0


if __name__ == "__main__":
    sys.exit(main(sys.argv[1:]))
