"""The four scales that scores are counted in.

A value is the two whole numbers that it is shown as: the second is 0 in every
scale but ranked. So the order of each scale is Python's own order of pairs, by
the first numbers and then by the second. Numbers are exact and have no bound.
"""

from abc import ABC, abstractmethod
from collections.abc import Iterable
from functools import reduce

Value = tuple[int, int]

HIGHEST_POINTS = 1_000_000
HIGHEST_LEVEL = 1000


class Scale(ABC):
    """A plain scale: values in an order, a joining and its neutral value."""

    code: int
    neutral: Value = (0, 0)
    neutral_word = 0

    @abstractmethod
    def entry(self, word: int) -> Value | None:
        """The value that a 32-bit word stands for, or None if it is no entry."""

    @abstractmethod
    def join(self, a: Value, b: Value) -> Value:
        """Two values joined."""

    def value_of(self, word: int) -> Value:
        """What a word reads as; one that is no entry reads as the neutral value."""
        value = self.entry(word)
        return self.neutral if value is None else value

    def joined(self, values: Iterable[Value]) -> Value:
        """All the values joined, in their order."""
        return reduce(self.join, values, self.neutral)


class Measuring(Scale):
    """A scale that can also say by how much one value is higher than another."""

    def gap(self, a: Value, b: Value) -> Value:
        """The gap of a over b, neutral where a is lower."""
        return (a[0] - b[0], a[1] - b[1]) if a >= b else self.neutral


class Points(Measuring):
    code = 1

    def entry(self, word: int) -> Value | None:
        points = signed(word, 32)
        return (points, 0) if abs(points) <= HIGHEST_POINTS else None

    def join(self, a: Value, b: Value) -> Value:
        return a[0] + b[0], 0


class Capped(Measuring):
    code = 2

    def entry(self, word: int) -> Value | None:
        return level(word)

    def join(self, a: Value, b: Value) -> Value:
        return min(a[0] + b[0], HIGHEST_LEVEL), 0


class Ranked(Measuring):
    code = 3

    def entry(self, word: int) -> Value | None:
        first, second = signed(word & 0xFFFF, 16), signed(word >> 16, 16)
        return (first, second) if max(abs(first), abs(second)) <= HIGHEST_LEVEL else None

    def join(self, a: Value, b: Value) -> Value:
        return a[0] + b[0], a[1] + b[1]


class Weakest(Scale):
    """What is joined is as high as its lowest part. No gap can be said."""

    code = 4
    neutral = (HIGHEST_LEVEL, 0)
    neutral_word = HIGHEST_LEVEL

    def entry(self, word: int) -> Value | None:
        return level(word)

    def join(self, a: Value, b: Value) -> Value:
        return min(a, b)


SCALES: dict[int, Scale] = {scale.code: scale for scale in (Points(), Capped(), Ranked(), Weakest())}


def signed(number: int, bits: int) -> int:
    """A number of so many bits, read as two's complement."""
    return number - (1 << bits) if number >> (bits - 1) else number


def level(word: int) -> Value | None:
    """An unsigned word from 0 to 1,000 as a value, or None."""
    return (word, 0) if word <= HIGHEST_LEVEL else None
