"""Small random problems of several kinds. The same label always gives the same problem."""

from collections.abc import Callable, Sequence
from dataclasses import dataclass
from random import Random
from typing import TypeVar

from problem import Problem
from scales import SCALES

NAMES = {1: "points", 2: "capped", 3: "ranked", 4: "weakest"}
WEAKEST = 4

Item = TypeVar("Item")


@dataclass(frozen=True)
class Shape:
    """A problem without its words."""

    domains: list[int]
    scopes: list[list[int]]


# Shapes.


def mixed(random: Random) -> Shape:
    domains = sizes(random, random.randint(1, 5), 1, 4)
    return Shape(domains, [scope(random, range(len(domains)), 3) for _ in range(random.randint(1, 4))])


def apart(random: Random) -> Shape:
    """Two groups of variables, perhaps one more that no function uses, and functions within a group."""
    domains = sizes(random, random.randint(4, 7), 1, 3)
    groups = [range(0, len(domains), 2), range(1, len(domains), 2)]
    return Shape(domains, [scope(random, random.choice(groups), 3) for _ in range(random.randint(2, 5))])


def dense(random: Random) -> Shape:
    """Large scopes over few variables, so that a function loses several links."""
    domains = sizes(random, random.randint(3, 4), 2, 3)
    scopes = [shuffled(random, range(len(domains))) for _ in range(random.randint(2, 3))]
    return Shape(domains, scopes)


def repeated(random: Random) -> Shape:
    """Functions on the same variables, at other places."""
    domains = sizes(random, random.randint(2, 4), 2, 3)
    neighbours = scope(random, range(len(domains)), 3)
    return Shape(domains, [shuffled(random, neighbours) for _ in range(random.randint(2, 4))])


def single(random: Random) -> Shape:
    """Most variables have one value."""
    domains = [random.choice([1, 1, 1, 2]) for _ in range(random.randint(1, 6))]
    return Shape(domains, [scope(random, range(len(domains)), 4) for _ in range(random.randint(1, 5))])


def chain(random: Random) -> Shape:
    """Neighbouring variables share a function, the ends perhaps too, numbered in any order."""
    domains = sizes(random, random.randint(3, 6), 2, 4)
    ring = shuffled(random, range(len(domains)))
    pairs = [[ring[number - 1], ring[number]] for number in range(random.randint(0, 1), len(ring))]
    return Shape(domains, shuffled(random, pairs))


def wide(random: Random) -> Shape:
    """One variable with many values."""
    domains = [random.randint(5, 16)] + sizes(random, random.randint(0, 2), 1, 3)
    return Shape(domains, [scope(random, range(len(domains)), 2) for _ in range(random.randint(1, 3))])


def bare(random: Random) -> Shape:
    """No functions."""
    return Shape(sizes(random, random.randint(1, 4), 1, 16), [])


def long(random: Random) -> Shape:
    """Up to the most variables and functions, with small tables."""
    domains = sizes(random, random.randint(20, 64), 1, 2)
    return Shape(domains, [scope(random, range(len(domains)), 3) for _ in range(random.randint(20, 64))])


SMALL_SHAPES: list[Callable[[Random], Shape]] = [mixed, apart, dense, repeated, single, chain, wide, bare]


def sizes(random: Random, count: int, least: int, most: int) -> list[int]:
    return [random.randint(least, most) for _ in range(count)]


def shuffled(random: Random, items: Sequence[Item]) -> list[Item]:
    rest = list(items)
    return [rest.pop(random.randrange(len(rest))) for _ in range(len(rest))]


def scope(random: Random, variables: Sequence[int], most: int) -> list[int]:
    """From one to so many different variables, in any order."""
    return shuffled(random, variables)[: random.randint(1, min(most, len(variables)))]


def without_cycle(shape: Shape) -> Shape:
    """The shape with each scope cut down to variables that nothing joins yet."""
    part = list(range(len(shape.domains)))
    scopes = []
    for whole in shape.scopes:
        used: list[int] = []
        for variable in whole:
            if all(part[variable] != part[other] for other in used):
                used.append(variable)
        joined = {part[variable] for variable in used}
        part = [min(joined) if number in joined else number for number in part]
        scopes.append(used)
    return Shape(shape.domains, scopes)


# Words.


def any_word(random: Random, code: int) -> int:
    """Any entry of the scale."""
    if code == 1:
        return random.randint(-1_000_000, 1_000_000) & 0xFFFFFFFF
    if code == 3:
        return ranked(random.randint(-1000, 1000), random.randint(-1000, 1000))
    # Low ones more often: in capped a few high ones join to 1,000, whatever the plan.
    return random.randint(0, random.choice([100, 300, 1000]))


def close_word(random: Random, code: int) -> int:
    """One of a few entries near each other, so that many figures tie."""
    if code == 3:
        return ranked(random.randint(0, 1), random.randint(-1, 1))
    return random.randint(3, 6)


def end_word(random: Random, code: int) -> int:
    """One of the outermost entries, or neutral."""
    if code == 1:
        return random.choice([-1_000_000, 1_000_000, 1_000_000, -999_999, 999_999, -1, 0]) & 0xFFFFFFFF
    if code == 3:
        return ranked(random.choice([-1000, 0, 1000]), random.choice([-1000, 0, 1000]))
    return random.choice([0, 1, 400, 600, 999, 1000])


WORDS: dict[str, Callable[[Random, int], int]] = {"any": any_word, "close": close_word, "ends": end_word}


def ranked(first: int, second: int) -> int:
    """A word of the ranked scale."""
    return first & 0xFFFF | (second & 0xFFFF) << 16


# Problems.


def filled(code: int, shape: Shape, word: Callable[[], int]) -> Problem:
    """A problem of this shape; its words come one after the other."""
    problem = Problem(SCALES[code])
    for size in shape.domains:
        problem.add_variable(size)
    for variables in shape.scopes:
        number = problem.add_function(variables)
        for index in range(len(problem.functions[number].table)):
            problem.set_entry(number, index, word())
    return problem


def random_problem(label: str, code: int, shape_of: Callable[[Random], Shape], words: str) -> Problem:
    """The problem of this label. In weakest three of four have no cycle, since a cycle is declined there."""
    random = Random(label)
    shape = shape_of(random)
    if code == WEAKEST and random.randrange(4):
        shape = without_cycle(shape)
    return filled(code, shape, lambda: WORDS[words](random, code))


def small_problems(count: int) -> dict[str, Problem]:
    """So many small problems of each scale, shape and kind of words, by label."""
    problems = {}
    for code, name in NAMES.items():
        for shape_of in SMALL_SHAPES:
            for words in ["any"] if shape_of is bare else WORDS:
                for number in range(count):
                    label = f"{name} {shape_of.__name__} {words} {number}"
                    problems[label] = random_problem(label, code, shape_of, words)
    return problems
