"""The example problem files.

    python3 examples/make.py            write them beside this script
    python3 examples/make.py --check    compare them instead

Cameras watch spots. A camera with n headings can face n evenly spread ways,
counted in degrees: 0 right, 90 down, 180 left, 270 up. A function scores how
well the cameras around one spot see it together.
"""

import struct
import sys
from collections.abc import Callable
from itertools import product
from pathlib import Path
from typing import NamedTuple

HERE = Path(__file__).resolve().parent

POINTS, CAPPED, RANKED, WEAKEST = 1, 2, 3, 4


class Function(NamedTuple):
    scope: tuple[int, ...]
    words: list[int]


class Spot(NamedTuple):
    """Cameras, the bearing of the spot from each of them, and what the spot is worth."""

    cameras: tuple[int, ...]
    bearings: tuple[int, ...]
    worth: int


Score = Callable[[int, list[int], tuple[int, ...]], int]


def problem_file(code: int, domains: list[int], functions: list[Function]) -> bytes:
    """The bytes of a problem file."""
    words = [word & 0xFFFFFFFF for function in functions for word in function.words]
    scopes_at = 16 + len(domains)
    entries_at = scopes_at + 5 * len(functions)
    length = entries_at + 4 * len(words)
    counts = len(domains), len(functions), len(words)
    header = struct.pack("<8H", code, *counts, 16, scopes_at, entries_at, length)
    scopes = b"".join(bytes((len(f.scope), *f.scope)).ljust(5, b"\xff") for f in functions)
    return header + bytes(domains) + scopes + struct.pack(f"<{len(words)}I", *words)


def share(heading: int, headings: int, bearing: int) -> int:
    """How much of a spot a camera sees, in thousandths: all straight ahead, none from 90 degrees on."""
    turn = abs(360 * heading // headings - bearing)
    return max(0, 90 - min(turn, 360 - turn)) * 1000 // 90


def seen(shares: list[int]) -> int:
    """How much of a spot the cameras see together, in thousandths."""
    unseen = 1000
    for part in shares:
        unseen = unseen * (1000 - part) // 1000
    return 1000 - unseen


def function(domains: list[int], score: Score, spot: Spot) -> Function:
    """The table of one spot; the last camera's heading varies fastest."""
    words = []
    for headings in product(*(range(domains[camera]) for camera in spot.cameras)):
        views = zip(headings, spot.cameras, spot.bearings)
        shares = [share(heading, domains[camera], bearing) for heading, camera, bearing in views]
        words.append(score(spot.worth, shares, headings))
    return Function(spot.cameras, words)


def problem(code: int, domains: list[int], score: Score, spots: list[Spot]) -> bytes:
    """A problem file with one function for each spot."""
    return problem_file(code, domains, [function(domains, score, spot) for spot in spots])


def points_score(worth: int, shares: list[int], _headings: tuple[int, ...]) -> int:
    """A gain if more than a quarter of the spot is seen, else a loss."""
    return worth * (seen(shares) - 250)


def share_score(worth: int, shares: list[int], _headings: tuple[int, ...]) -> int:
    """The part of the spot that is seen, by its worth in percent: 0 to 1,000."""
    return worth * seen(shares) // 100


def ranked_score(worth: int, shares: list[int], headings: tuple[int, ...]) -> int:
    """First how well the spot is seen, then how little the cameras turn from heading 0."""
    first = worth * (seen(shares) - 500) // 100
    second = -25 * sum(headings)
    return first & 0xFFFF | (second & 0xFFFF) << 16


def is_forest(variables: int, spots: list[Spot]) -> bool:
    """Whether variables and functions, joined by the links, hold no circle."""
    group = list(range(variables))
    for spot in spots:
        joined = {group[camera] for camera in spot.cameras}
        if len(joined) < len(spot.cameras):
            return False
        group = [min(joined) if number in joined else number for number in group]
    return True


def pair(last_word: int) -> bytes:
    """Two cameras of two headings, scored twice."""
    return problem_file(POINTS, [2, 2], [Function((0, 1), [0, 4, 1, 2]), Function((0, 1), [3, 0, 0, last_word])])


def forty_cameras() -> bytes:
    """Cameras on a grid of 8 columns and 5 rows, numbered row by row."""
    columns, rows = 8, 5
    domains = [4 + (3 * column + 2 * row) % 5 for row in range(rows) for column in range(columns)]
    spots = []
    for camera in range(columns * rows):
        row, column = divmod(camera, columns)
        right, below = camera + 1, camera + columns
        worth = 20 + 37 * camera % 81
        has_right, has_below = column + 1 < columns, row + 1 < rows
        if has_right:
            spots.append(Spot((camera, right), (0, 180), worth))
        # A wall hides every third camera from the one below.
        if has_below and (column + row) % 3:
            spots.append(Spot((camera, below), (90, 270), worth))
        # A few squares of the grid have a post in the middle, watched from three corners.
        if has_right and has_below and camera % 6 == 3:
            spots.append(Spot((camera, right, below), (45, 135, 315), 100))
    return problem(POINTS, domains, points_score, spots)


def hall() -> bytes:
    """Six cameras along the walls of a hall."""
    spots = [
        Spot((0, 1), (0, 180), 80),
        Spot((1, 2), (0, 180), 60),
        Spot((3, 4, 5), (300, 270, 240), 90),
        Spot((0, 2, 3, 5), (45, 135, 315, 225), 100),
        Spot((1, 4), (90, 270), 70),
    ]
    return problem(CAPPED, [4, 3, 4, 3, 5, 4], share_score, spots)


def station() -> bytes:
    """Five cameras around the exits of a station."""
    spots = [
        Spot((0, 1), (0, 180), 100),
        Spot((1, 2, 3), (90, 45, 315), 160),
        Spot((3, 4), (0, 180), 120),
        Spot((0, 4), (90, 270), 80),
        Spot((2,), (180,), 40),
    ]
    return problem(RANKED, [4, 5, 3, 4, 6], ranked_score, spots)


def corridor() -> bytes:
    """Eight cameras along a corridor with side rooms, joined without a circle."""
    domains = [4, 3, 4, 2, 3, 4, 5, 2]
    spots = [
        Spot((0, 1), (10, 170), 100),
        Spot((1, 2, 3), (0, 190, 80), 90),
        Spot((3, 4), (20, 160), 100),
        Spot((4, 5, 6, 7), (350, 200, 110, 250), 95),
        Spot((6,), (45,), 100),
    ]
    assert is_forest(len(domains), spots)
    return problem(WEAKEST, domains, share_score, spots)


def example_files() -> dict[Path, bytes]:
    return {
        HERE / "pair.problem": pair(5),
        HERE / "broken.problem": pair(1_000_001),
        HERE / "forty-cameras.problem": forty_cameras(),
        HERE / "capped.problem": hall(),
        HERE / "ranked.problem": station(),
        HERE / "weakest.problem": corridor(),
    }


def main(arguments: list[str]) -> int:
    if arguments not in ([], ["--check"]):
        print("usage: make.py [--check]", file=sys.stderr)
        return 2
    status = 0
    for path, content in example_files().items():
        if not arguments:
            path.write_bytes(content)
            print(f"{path.name}: {len(content)} bytes written")
        elif not path.is_file() or path.read_bytes() != content:
            print(f"{path.name}: differs")
            status = 1
    return status


if __name__ == "__main__":
    sys.exit(main(sys.argv[1:]))
