"""The engine: the calls on one problem, and the sheet that is printed for a problem file.

    python3 reference/engine.py < FILE    print the sheet of a problem file
"""

import sys
from collections.abc import Callable, Sequence
from dataclasses import dataclass

import problem_file
from problem import Problem, Refusal, refuse_if
from scales import Measuring, Scale, Value
from solving import CHOICE_CELLS, VALUE_CELLS, Report, Solution, bounded_solution, straight_solution


@dataclass
class Engine:
    """A problem and the report that stands. A declined call raises a Refusal and leaves both as they were."""

    problem: Problem
    standing: Report | None = None

    @classmethod
    def opened(cls, scale: Scale) -> "Engine":
        return cls(Problem(scale))

    def read(self, data: bytes) -> None:
        self.problem = problem_file.read(data, self.problem.scale)
        self.standing = None

    def write(self, buffer: bytearray) -> int:
        return problem_file.write(self.problem, buffer)

    def add_variable(self, size: int) -> int:
        number = self.problem.add_variable(size)
        self.standing = None
        return number

    def add_function(self, scope: Sequence[int]) -> int:
        number = self.problem.add_function(scope)
        self.standing = None
        return number

    def set_entry(self, function: int, index: int, word: int) -> None:
        self.problem.set_entry(function, index, word)
        self.standing = None

    def bounded_solve(self, values: list[Value], choices: list[int]) -> Report:
        return self.solve(bounded_solution, values, choices)

    def straight_solve(self, values: list[Value], choices: list[int]) -> Report:
        return self.solve(straight_solution, values, choices)

    def solve(self, way: Callable[[Problem], Solution], values: list[Value], choices: list[int]) -> Report:
        """Solve in one of the two ways, and fill the two stores that the caller lends."""
        refuse_if(len(values) != VALUE_CELLS or len(choices) != CHOICE_CELLS, 1)
        solution = way(self.problem)
        values[:] = solution.values
        choices[:] = solution.choices
        self.standing = solution.report
        return solution.report

    def report(self) -> Report:
        if self.standing is None:
            raise Refusal(14)
        return self.standing

    def score(self, values: Sequence[int]) -> Value:
        return self.problem.score(values)

    def weight(self, function: int, place: int) -> Value:
        return self.problem.weight(function, place)

    def same(self, other: "Engine") -> bool:
        return self.problem.same(other.problem)


def sheet(data: bytes) -> list[str]:
    """The lines that are printed for a problem file."""
    try:
        problem = problem_file.read_any(data)
        way = bounded_solution if isinstance(problem.scale, Measuring) else straight_solution
        return report_lines(problem, way(problem).report)
    except Refusal as refusal:
        return [f"refused {refusal.number} {refusal.place}"]


def report_lines(problem: Problem, report: Report) -> list[str]:
    plan = report.plan[: len(problem.domains)]
    return [
        f"scale {problem.scale.code}",
        " ".join(("plan", *map(str, plan))),
        f"kept {report.kept_count}",
        "tree {} {}".format(*report.tree),
        "score {} {}".format(*report.score),
        "removed {} {}".format(*report.removed),
        "ceiling {} {}".format(*report.ceiling),
        f"share {report.share}",
    ]


if __name__ == "__main__":
    # Nothing is cut off here: a file longer than the longest never has the length that its counts give.
    for line in sheet(sys.stdin.buffer.read()):
        print(line)
