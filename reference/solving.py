"""Solving: from the tables of a problem to its report and the two stores.

Links are kept so that they form a spanning forest of the factor graph. Messages go
up the forest, the plan comes down it, and the weights of the removed links bound
what they could have added.
"""

from collections.abc import Iterable, Mapping, Sequence
from dataclasses import dataclass, field
from typing import TypeVar

from problem import MOST_FUNCTIONS, MOST_VARIABLES, Combination, Function, Problem, refuse_if
from scales import Value

ROW = 16  # cells of a row
MESSAGE_ROWS = MOST_VARIABLES + MOST_FUNCTIONS  # variables first, then functions
VALUE_CELLS = 2304  # the rows of messages, then 256 link weights
CHOICE_CELLS = 1024

Cell = TypeVar("Cell")


@dataclass(frozen=True)
class Report:
    plan: tuple[int, ...]  # 64 values, 0 past the last variable
    kept: tuple[int, ...]  # four 64-bit words, link n at bit n mod 64 of word n div 64
    kept_count: int
    tree: Value
    score: Value
    removed: Value
    ceiling: Value
    share: int


@dataclass(frozen=True)
class Solution:
    report: Report
    values: list[Value]  # what the value store holds
    choices: list[int]  # what the choice store holds


def bounded_solution(problem: Problem) -> Solution:
    """Remove the lightest links until no cycle is left. The scale has to measure."""
    refuse_if(not problem.domains, 12)
    weights = {link: problem.weight(*divmod(link, 4)) for link in problem.links()}
    # Sorting leaves equals in their order, so the lowest number comes first among them.
    heaviest_first = sorted(problem.links(), key=lambda link: weights[link], reverse=True)
    return solution(problem, spanning_forest(problem, heaviest_first), weights)


def straight_solution(problem: Problem) -> Solution:
    """Keep every link; a cycle is declined."""
    refuse_if(not problem.domains, 12)
    links = problem.links()
    kept = spanning_forest(problem, links)
    refuse_if(len(kept) < len(links), 13)
    return solution(problem, kept, {})


# Which links are kept, and how they hang.


def spanning_forest(problem: Problem, order: Iterable[int]) -> set[int]:
    """Each link, along this order, that closes no cycle with those kept before it."""
    # Each node has the node that stands for all that the kept links join it to.
    part = list(range(MOST_VARIABLES + MOST_FUNCTIONS))
    kept = set()
    for link in order:
        number, place = divmod(link, 4)
        variable = part[problem.functions[number].scope[place]]
        function = part[MOST_VARIABLES + number]
        if variable != function:
            kept.add(link)
            part = [variable if node == function else node for node in part]
    return kept


@dataclass
class Forest:
    """The kept links of a problem, hung from the lowest variable of each part."""

    problem: Problem
    kept: set[int]
    # The function that a variable hangs from, None at a root; and the place by which a function hangs.
    parents: dict[int, int | None] = field(default_factory=dict)
    parent_places: dict[int, int] = field(default_factory=dict)

    def __post_init__(self) -> None:
        for variable in range(len(self.problem.domains)):
            if variable not in self.parents:
                self.hang_variable(variable, None)

    def hang_variable(self, variable: int, parent: int | None) -> None:
        self.parents[variable] = parent
        for function in self.functions_below(variable):
            self.hang_function(function, self.problem.functions[function].scope.index(variable))

    def hang_function(self, function: int, place: int) -> None:
        self.parent_places[function] = place
        for below in self.places_below(function):
            self.hang_variable(self.problem.functions[function].scope[below], function)

    def roots(self) -> list[int]:
        return [variable for variable, parent in sorted(self.parents.items()) if parent is None]

    def functions_below(self, variable: int) -> list[int]:
        """The functions that a kept link joins to a variable, other than its parent."""
        joined = [link // 4 for link in sorted(self.kept) if self.variable_at(link) == variable]
        return [function for function in joined if function != self.parents[variable]]

    def places_below(self, function: int) -> list[int]:
        """The kept places of a function, other than the one of its parent."""
        places = range(len(self.problem.functions[function].scope))
        return [place for place in places if self.keeps(function, place) and place != self.parent_places[function]]

    def removed_places(self, function: int) -> list[int]:
        places = range(len(self.problem.functions[function].scope))
        return [place for place in places if not self.keeps(function, place)]

    def keeps(self, function: int, place: int) -> bool:
        return 4 * function + place in self.kept

    def variable_at(self, link: int) -> int:
        number, place = divmod(link, 4)
        return self.problem.functions[number].scope[place]


# Messages up the forest, and the plan down it.


def cut_table(problem: Problem, function: Function, removed: Sequence[int]) -> dict[Combination, Value]:
    """The lowest entry over all values at the removed places, which are counted as 0; in table order."""
    cut: dict[Combination, Value] = {}
    for combination, entry in problem.entries(function):
        zeroed = tuple(0 if place in removed else value for place, value in enumerate(combination))
        cut[zeroed] = min(entry, cut.get(zeroed, entry))
    return cut


@dataclass
class Messages:
    """What each node says to its parent, value by value, and what each function takes at each value of its parent."""

    forest: Forest
    of_variables: dict[int, list[Value]] = field(default_factory=dict)
    of_functions: dict[int, list[Value]] = field(default_factory=dict)
    choices: dict[int, list[Combination]] = field(default_factory=dict)

    def __post_init__(self) -> None:
        for root in self.forest.roots():
            self.send_from_variable(root)

    def send_from_variable(self, variable: int) -> list[Value]:
        problem = self.forest.problem
        below = [self.send_from_function(function) for function in self.forest.functions_below(variable)]
        values = range(problem.domains[variable])
        message = [problem.scale.joined(heard[value] for heard in below) for value in values]
        self.of_variables[variable] = message
        return message

    def send_from_function(self, number: int) -> list[Value]:
        problem, function = self.forest.problem, self.forest.problem.functions[number]
        below = {place: self.send_from_variable(function.scope[place]) for place in self.forest.places_below(number)}
        best: dict[int, tuple[Value, Combination]] = {}
        for combination, entry in cut_table(problem, function, self.forest.removed_places(number)).items():
            heard = [message[combination[place]] for place, message in below.items()]
            total = problem.scale.joined([entry, *heard])
            value = combination[self.forest.parent_places[number]]
            # Only a higher total takes over, so the first combination that reaches the message stays.
            if value not in best or total > best[value][0]:
                best[value] = total, combination
        self.of_functions[number] = [best[value][0] for value in sorted(best)]
        self.choices[number] = [best[value][1] for value in sorted(best)]
        return self.of_functions[number]

    def highest(self, root: int) -> Value:
        return max(self.of_variables[root])

    def plan(self) -> tuple[int, ...]:
        plan = [0] * MOST_VARIABLES
        for root in self.forest.roots():
            # The lowest value whose message is highest.
            self.take(plan, root, self.of_variables[root].index(self.highest(root)))
        return tuple(plan)

    def take(self, plan: list[int], variable: int, value: int) -> None:
        """Give a variable its value; the functions below choose for the variables below them."""
        plan[variable] = value
        for number in self.forest.functions_below(variable):
            combination = self.choices[number][value]
            for place in self.forest.places_below(number):
                self.take(plan, self.forest.problem.functions[number].scope[place], combination[place])


# The figures and the stores.


def solution(problem: Problem, kept: set[int], weights: Mapping[int, Value]) -> Solution:
    forest = Forest(problem, kept)
    messages = Messages(forest)
    report = report_of(messages, weights)
    return Solution(report, value_store(messages, weights), choice_store(messages))


def report_of(messages: Messages, weights: Mapping[int, Value]) -> Report:
    forest, problem = messages.forest, messages.forest.problem
    scale = problem.scale
    plan = messages.plan()
    score = problem.score(plan[: len(problem.domains)])
    tree = scale.joined(messages.highest(root) for root in forest.roots())
    removed = scale.joined(weights[link] for link in problem.links() if link not in forest.kept)
    # The bound stands on the tree value: what the plan scores above it is no reason for a higher one.
    ceiling = scale.join(tree, removed)
    kept = kept_words(forest.kept)
    kept_count = sum(word.bit_count() for word in kept)
    return Report(plan, kept, kept_count, tree, score, removed, ceiling, share(score, ceiling))


def kept_words(kept: set[int]) -> tuple[int, ...]:
    return tuple(sum(1 << link % 64 for link in kept if link // 64 == word) for word in range(4))


def share(score: Value, ceiling: Value) -> int:
    """Thousandths of the ceiling that the score reaches, on first numbers."""
    return 1000 * score[0] // ceiling[0] if score[0] > 0 and ceiling[0] > 0 else 0


def value_store(messages: Messages, weights: Mapping[int, Value]) -> list[Value]:
    cells = [messages.forest.problem.scale.neutral] * VALUE_CELLS
    for variable, message in messages.of_variables.items():
        put_row(cells, variable, message)
    for number, message in messages.of_functions.items():
        put_row(cells, MOST_VARIABLES + number, message)
    for link, weight in weights.items():
        cells[ROW * MESSAGE_ROWS + link] = weight
    return cells


def choice_store(messages: Messages) -> list[int]:
    problem = messages.forest.problem
    cells = [0] * CHOICE_CELLS
    for number, combinations in messages.choices.items():
        put_row(cells, number, [problem.index(problem.functions[number], each) for each in combinations])
    return cells


def put_row(cells: list[Cell], row: int, content: list[Cell]) -> None:
    """Put this at the front of a row."""
    cells[ROW * row : ROW * row + len(content)] = content
