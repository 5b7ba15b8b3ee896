"""A problem: variables with domains, functions with scopes and tables of words.

Place p of function f is link 4f + p, between the function and its variable there.
"""

from collections.abc import Iterator, Sequence
from dataclasses import dataclass, field
from itertools import product
from math import prod

from scales import Measuring, Scale, Value

MOST_VARIABLES = 64
MOST_FUNCTIONS = 64
MOST_VALUES = 16
MOST_PLACES = 4
MOST_WORDS = 1024  # of one table
MOST_ENTRIES = 4096  # of all tables together

Combination = tuple[int, ...]  # one value for each place of a function


class Refusal(Exception):
    """Why a call was declined; the place is a byte offset if it comes from a file."""

    def __init__(self, number: int, place: int = 0) -> None:
        super().__init__(number, place)
        self.number = number
        self.place = place


def refuse_if(fits: bool, number: int, place: int = 0) -> None:
    """Decline with this number if the test fits."""
    if fits:
        raise Refusal(number, place)


@dataclass
class Function:
    scope: tuple[int, ...]
    table: list[int]


@dataclass
class Problem:
    """Variables and functions by number. Every call tests all that it refuses before it changes anything."""

    scale: Scale
    domains: list[int] = field(default_factory=list)
    functions: list[Function] = field(default_factory=list)

    def add_variable(self, size: int) -> int:
        refuse_if(not 1 <= size <= MOST_VALUES, 2)
        refuse_if(len(self.domains) == MOST_VARIABLES, 3)
        self.domains.append(size)
        return len(self.domains) - 1

    def add_function(self, scope: Sequence[int]) -> int:
        refuse_if(not 1 <= len(scope) <= MOST_PLACES, 4)
        refuse_if(any(variable not in range(len(self.domains)) for variable in scope), 5)
        refuse_if(len(set(scope)) < len(scope), 6)
        refuse_if(len(self.functions) == MOST_FUNCTIONS, 7)
        words = prod(self.domains[variable] for variable in scope)
        refuse_if(words > MOST_WORDS or self.word_count() + words > MOST_ENTRIES, 8)
        self.functions.append(Function(tuple(scope), [self.scale.neutral_word] * words))
        return len(self.functions) - 1

    def set_entry(self, number: int, index: int, word: int) -> None:
        refuse_if(number not in range(len(self.functions)), 9)
        refuse_if(index not in range(len(self.functions[number].table)), 10)
        refuse_if(self.scale.entry(word) is None, 11)
        self.functions[number].table[index] = word

    def word_count(self) -> int:
        """The words of all tables together."""
        return sum(len(function.table) for function in self.functions)

    def links(self) -> list[int]:
        """The numbers of all links, in order."""
        return [4 * f + place for f, function in enumerate(self.functions) for place in range(len(function.scope))]

    def index(self, function: Function, combination: Combination) -> int:
        """Where a combination stands in the table: the last place varies fastest."""
        index = 0
        for variable, value in zip(function.scope, combination, strict=True):
            index = index * self.domains[variable] + value
        return index

    def entries(self, function: Function) -> Iterator[tuple[Combination, Value]]:
        """Each combination with its entry, in table order."""
        combinations = product(*(range(self.domains[variable]) for variable in function.scope))
        return zip(combinations, map(self.scale.value_of, function.table), strict=True)

    def score(self, values: Sequence[int]) -> Value:
        """The entries that the values pick, joined function by function."""
        refuse_if(len(values) != len(self.domains), 15)
        refuse_if(any(value not in range(size) for value, size in zip(values, self.domains)), 16)
        picked = []
        for function in self.functions:
            combination = tuple(values[variable] for variable in function.scope)
            picked.append(self.scale.value_of(function.table[self.index(function, combination)]))
        return self.scale.joined(picked)

    def weight(self, number: int, place: int) -> Value:
        """The most that the variable at this place can matter, whatever the values at the other places."""
        scale = self.scale
        assert isinstance(scale, Measuring)
        refuse_if(number not in range(len(self.functions)), 9)
        function = self.functions[number]
        refuse_if(place not in range(len(function.scope)), 17)
        lines: dict[Combination, list[Value]] = {}
        for combination, entry in self.entries(function):
            others = combination[:place] + combination[place + 1 :]
            lines.setdefault(others, []).append(entry)
        return max(scale.gap(max(line), min(line)) for line in lines.values())

    def same(self, other: "Problem") -> bool:
        """Whether domain sizes, scopes and read entries agree in order."""
        return self.domains == other.domains and self.read_functions() == other.read_functions()

    def read_functions(self) -> list[tuple[tuple[int, ...], list[Value]]]:
        """The scopes, each with the values that the words of its table read as."""
        return [(f.scope, [self.scale.value_of(word) for word in f.table]) for f in self.functions]
