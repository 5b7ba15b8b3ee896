"""An exhaustive check of what a report promises, on small problems.

    python3 reference/check.py    print one line of counts; the exit status is 1 if something does not hold

Every plan and every set of links of a problem is gone through. What is expected is
worked out here by plain search, with no step of solving in it.
"""

import sys
from collections import Counter
from collections.abc import Iterable, Iterator
from itertools import combinations, product
from math import prod

import worked
from problem import MOST_VARIABLES, Combination, Problem, Refusal
from samples import small_problems
from scales import Measuring, Value
from solving import MESSAGE_ROWS, ROW, Solution, bounded_solution, straight_solution
from worked import Broken, hold

MOST_PLANS = 1000
MOST_LINKS = 10
OF_A_KIND = 12  # problems of each scale, shape and kind of words
CYCLE = 13

Entries = dict[Combination, Value]


# The factor graph. Variable v is node v; functions come after the last number that a variable can have.


def ends(problem: Problem, link: int) -> tuple[int, int]:
    """The variable and the function that a link joins."""
    number, place = divmod(link, 4)
    return problem.functions[number].scope[place], MOST_VARIABLES + number


def has_cycle(problem: Problem, links: Iterable[int]) -> bool:
    """Whether links are left after taking away, again and again, those with an end that no other link has."""
    left = [ends(problem, link) for link in links]
    while True:
        met = Counter(node for pair in left for node in pair)
        rest = [pair for pair in left if all(met[node] > 1 for node in pair)]
        if len(rest) == len(left):
            return bool(left)
        left = rest


def depths(problem: Problem, links: Iterable[int]) -> dict[int, int]:
    """How many links each node is away from the lowest variable that they join it to."""
    pairs = [ends(problem, link) for link in links]
    depth: dict[int, int] = {}
    for root in range(len(problem.domains)):
        front, away = {root} - depth.keys(), 0
        while front:
            depth |= dict.fromkeys(front, away)
            reached = {b for a, b in pairs if a in front} | {a for a, b in pairs if b in front}
            front, away = reached - depth.keys(), away + 1
    return depth


# A solved problem, and what is promised of it.


class Solved:
    """A problem with its solution, its links told apart, and its tables and cut tables spelled out."""

    def __init__(self, problem: Problem, solution: Solution) -> None:
        self.problem = problem
        self.solution = solution
        self.report = solution.report
        self.links = self.problem.links()
        self.kept = [link for link in self.links if self.report.kept[link // 64] >> link % 64 & 1]
        self.removed = [link for link in self.links if link not in self.kept]
        self.tables = [dict(self.problem.entries(function)) for function in self.problem.functions]
        self.cuts = [self.cut(number) for number in range(len(self.tables))]
        self.plan = self.report.plan[: len(self.problem.domains)]

    def kept_places(self, number: int) -> list[int]:
        return [link % 4 for link in self.kept if link // 4 == number]

    def cut(self, number: int) -> Entries:
        """The lowest entry among the combinations that agree at the kept places, for each combination."""
        places, table = self.kept_places(number), self.tables[number]
        lowest: Entries = {}
        for combination, entry in table.items():
            at = tuple(combination[place] for place in places)
            lowest[at] = min(entry, lowest.get(at, entry))
        return {each: lowest[tuple(each[place] for place in places)] for each in table}

    def joined(self, tables: list[Entries], plan: Combination) -> Value:
        """The entries of some tables that a plan picks, joined."""
        scopes = (function.scope for function in self.problem.functions)
        picked = (table[tuple(plan[v] for v in scope)] for table, scope in zip(tables, scopes, strict=True))
        return self.problem.scale.joined(picked)


def check_plans(solved: Solved) -> int:
    """No plan passes the ceiling, and none cuts higher than ours. Answers how many plans there are."""
    report = solved.report
    hold(len(report.plan) == 64 and not any(report.plan[len(solved.plan) :]), "the plan is 0 past the last variable")
    hold(report.score == solved.joined(solved.tables, solved.plan), "the score is the plan's")
    hold(report.tree == solved.joined(solved.cuts, solved.plan), "the plan's cut score is the tree value")
    hold(report.score >= report.tree, "the plan's score is not below its cut score")
    hold(report.ceiling == solved.problem.scale.join(report.tree, report.removed), "the ceiling is joined of the two")
    plans = list(product(*map(range, solved.problem.domains)))
    for plan in plans:
        hold(solved.joined(solved.tables, plan) <= report.ceiling, "no plan's score is above the ceiling")
        hold(solved.joined(solved.cuts, plan) <= report.tree, "no plan's cut score is above the tree value")
    return len(plans)


def check_sets(solved: Solved) -> int:
    """The removed links are a lightest set that clears every cycle. Answers how many sets there are."""
    problem, report = solved.problem, solved.report
    hold(report.kept_count == len(solved.kept), "the kept count is that of the kept links")
    hold(not has_cycle(problem, solved.kept), "the removed links clear every cycle")
    weights = {link: heaviest_gap(solved, link) for link in solved.links}
    cells = [weights.get(link, problem.scale.neutral) for link in range(256)]
    hold(solved.solution.values[ROW * MESSAGE_ROWS :] == cells, "the store holds the weights")

    def weight(links: Iterable[int]) -> Value:
        return problem.scale.joined(weights[link] for link in links)

    hold(report.removed == weight(solved.removed), "the removed weight is that of the removed links")
    before: list[int] = []
    for link in sorted(weights, key=lambda link: (weights[link], -link), reverse=True):
        hold((link in solved.kept) != has_cycle(problem, [*before, link]), "a link is kept if it closes no cycle")
        before += [link] if link in solved.kept else []
    for rest in subsets(solved.links):
        cleared = set(solved.links).difference(rest)
        hold(weight(cleared) >= report.removed or has_cycle(problem, rest), "no set that clears every cycle is lighter")
    return 2 ** len(solved.links)


def heaviest_gap(solved: Solved, link: int) -> Value:
    """The highest gap between any two entries whose combinations differ at the link's place alone."""
    scale, table, place = solved.problem.scale, solved.tables[link // 4], link % 4
    assert isinstance(scale, Measuring)
    others = {each: each[:place] + each[place + 1 :] for each in table}
    return max(scale.gap(table[a], table[b]) for a in table for b in table if others[a] == others[b])


def subsets(links: list[int]) -> Iterator[tuple[int, ...]]:
    for count in range(len(links) + 1):
        yield from combinations(links, count)


def check_messages(solved: Solved) -> None:
    """Every message satisfies its equation, every choice is the first that reaches it, and the plan follows."""
    problem, depth = solved.problem, depths(solved.problem, solved.kept)
    rows = [solved.solution.values[ROW * row : ROW * (row + 1)] for row in range(MESSAGE_ROWS)]
    right = [[problem.scale.neutral] * ROW for _ in range(MESSAGE_ROWS)]
    taken = [0] * len(solved.solution.choices)
    for variable, size in enumerate(problem.domains):
        right[variable][:size] = variable_equation(solved, depth, rows, variable)
        hold(depth[variable] > 0 or solved.plan[variable] == best(rows[variable][:size])[1], "a root takes its best")
    for number, function in enumerate(problem.functions):
        cells = function_equation(solved, depth, rows, number)
        right[MOST_VARIABLES + number][: len(cells)] = [total for total, _ in cells]
        taken[ROW * number : ROW * number + len(cells)] = [index for _, index in cells]
    hold(rows == right, "each message is what the messages below say")
    hold(taken == solved.solution.choices, "each choice is the first that reaches the message")


def variable_equation(solved: Solved, depth: dict[int, int], rows: list[list[Value]], variable: int) -> list[Value]:
    """What the functions below a variable say together, for each of its values."""
    joined = [node for other, node in (ends(solved.problem, link) for link in solved.kept) if other == variable]
    below = [rows[node] for node in joined if depth[node] > depth[variable]]
    values = range(solved.problem.domains[variable])
    return [solved.problem.scale.joined(row[value] for row in below) for value in values]


def function_equation(
    solved: Solved, depth: dict[int, int], rows: list[list[Value]], number: int
) -> list[tuple[Value, int]]:
    """The message of a function at each value of its parent, with the index that it takes there."""
    problem, scope, cut = solved.problem, solved.problem.functions[number].scope, solved.cuts[number]
    places = solved.kept_places(number)
    (above,) = (place for place in places if depth[scope[place]] < depth[MOST_VARIABLES + number])
    totals = []
    for each, entry in cut.items():
        heard = [rows[scope[place]][each[place]] for place in places if place != above]
        totals.append((each, problem.scale.joined([entry, *heard])))
    values = range(problem.domains[scope[above]])
    cells = [best([total if each[above] == value else None for each, total in totals]) for value in values]
    combination = list(cut)[cells[solved.plan[scope[above]]][1]]
    hold(all(solved.plan[scope[place]] == combination[place] for place in places), "the plan follows the choices")
    return cells


def best(values: list[Value | None]) -> tuple[Value, int]:
    """The highest of the values that are there, and where it comes first."""
    highest = max(value for value in values if value is not None)
    return highest, values.index(highest)


# Many problems, each solved in every way that its scale and its links allow.


def check_problem(problem: Problem) -> Counter[str]:
    if prod(problem.domains) > MOST_PLANS or len(problem.links()) > MOST_LINKS:
        return Counter({"passed over": 1})
    counts = Counter({"problems": 1})
    if has_cycle(problem, problem.links()):
        hold(refused(problem) == CYCLE, "a cycle is declined")
    else:
        counts += check_straight(Solved(problem, straight_solution(problem)))
    if isinstance(problem.scale, Measuring):
        counts += check_bounded(Solved(problem, bounded_solution(problem)))
    return counts


def check_straight(solved: Solved) -> Counter[str]:
    neutral = solved.problem.scale.neutral
    hold(not solved.removed and solved.report.removed == neutral, "nothing is removed")
    hold(solved.solution.values[ROW * MESSAGE_ROWS :] == [neutral] * 256, "no weight is in the store")
    check_messages(solved)
    return Counter({"solves": 1, "plans": check_plans(solved)})


def check_bounded(solved: Solved) -> Counter[str]:
    check_messages(solved)
    return Counter({"solves": 1, "plans": check_plans(solved), "sets of links": check_sets(solved)})


def refused(problem: Problem) -> int | None:
    """The number by which straight solving declines a problem."""
    try:
        straight_solution(problem)
    except Refusal as refusal:
        return refusal.number
    return None


def main() -> int:
    label = "worked"
    try:
        counts = worked.check()
        for label, problem in small_problems(OF_A_KIND).items():
            counts += check_problem(problem)
    except Broken as broken:
        print(f"{label}: it does not hold that {broken}")
        return 1
    print(", ".join(f"{what}: {count}" for what, count in counts.items()))
    return 0


if __name__ == "__main__":
    sys.exit(main())
