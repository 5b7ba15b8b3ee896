"""Problems of the full sizes: the most variables, functions, links and entries."""

from collections.abc import Callable
from random import Random

from problem import Problem
from samples import NAMES, WEAKEST, WORDS, Shape, filled

MOST = 64


def ring() -> Shape:
    """Each variable shares a function with the next; one link is removed."""
    return Shape([8] * MOST, [[v, (v + 1) % MOST] for v in range(MOST)])


def fours() -> Shape:
    """256 links: each function has four places, of sizes 8, 4, 2 and 1."""
    scopes = [[4 * (f % 16), 4 * (3 * f % 16) + 1, 4 * (5 * f % 16) + 2, 4 * (f // 4) + 3] for f in range(MOST)]
    return Shape([8, 4, 2, 1] * 16, scopes)


def crowded() -> Shape:
    """All functions on the same four variables, so that 189 of 256 links are removed."""
    turns = [[0, 1, 2, 3], [3, 0, 2, 1], [1, 2, 3, 0], [2, 3, 0, 1]]
    return Shape([4, 2, 4, 2], [turns[f % 4] for f in range(MOST)])


def large() -> Shape:
    """Four tables of the most words."""
    return Shape([16, 8, 4, 2] * 16, [[0, 1, 2, 3], [3, 2, 1, 0], [60, 61, 62, 63], [60, 1, 62, 3]])


def line() -> Shape:
    """A path through all variables, out of number order; no cycle."""
    stops = [37 * v % MOST for v in range(MOST)]
    domains = [8] * MOST
    domains[stops[-1]] = 15
    return Shape(domains, [[stops[v + 1], stops[v]] for v in range(MOST - 1)] + [[stops[0]]])


def star() -> Shape:
    """Every variable shares a function with the last one; no cycle."""
    return Shape([15] + [8] * (MOST - 1), [[v, MOST - 1] for v in range(MOST - 1)] + [[MOST - 1]])


def branches() -> Shape:
    """A tree of functions of four places, and functions of one place on it; no cycle."""
    parents = [0] + [3 * (f // 2) + 1 for f in range(20)]
    scopes = [turned([parents[f], 3 * f + 1, 3 * f + 2, 3 * f + 3], f % 4) for f in range(21)]
    leaves = [0] + [3 * f + 2 for f in range(7)] + [3 * (f % 21) + 3 for f in range(35)]
    return Shape([8] + [8, 3, 1] * 21, scopes + [[variable] for variable in leaves])


def turned(items: list[int], places: int) -> list[int]:
    return items[places:] + items[:places]


# Each shape with the kind of its words.
WITH_CYCLES: list[tuple[Callable[[], Shape], str]] = [
    (ring, "any"),
    (fours, "close"),
    (crowded, "ends"),
    (large, "any"),
]
WITHOUT_CYCLE: list[tuple[Callable[[], Shape], str]] = [(line, "any"), (star, "close"), (branches, "ends")]


def full_problems() -> dict[str, Problem]:
    """Shapes with cycles in the measuring scales, and one without; those without a cycle in weakest."""
    problems = {}
    for code, name in NAMES.items():
        shapes = WITHOUT_CYCLE if code == WEAKEST else [*WITH_CYCLES, WITHOUT_CYCLE[code - 1]]
        for shape_of, words in shapes:
            label = f"{name} full {shape_of.__name__} {words}"
            problems[label] = full_problem(label, code, shape_of(), words)
    return problems


def full_problem(label: str, code: int, shape: Shape, words: str) -> Problem:
    random = Random(label)
    return filled(code, shape, lambda: WORDS[words](random, code))
