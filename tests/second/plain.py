"""Routes judged plainly, from what docs/format.md says of them: plans one by one, and all runs of a leaf, state by state,
without any pruning or dominance. For tests/second/memory and tests/second/run."""
from __future__ import annotations

from collections.abc import Callable, Iterator
from dataclasses import dataclass
from functools import cache, cached_property

import recheck

FIRST_ROW = 10_001  # behind the nodes: the index of the first row's multiplier
Cost = Callable[[int, int], int]
Limit = tuple[int, int, bool]  # a family's place, t, and whether it is crossed at most 2t times
State = tuple[int, int, frozenset[int], frozenset[int]]  # load, last customer, what it remembers, open rows
Link = tuple[int, int, tuple[int, ...]]  # two nodes, and the rows that a run pays for from one to the other
Step = tuple[int, int]  # the places of a link, and of the state after it


def plans(fleet: recheck.Fleet) -> Iterator[list[list[int]]]:
    """All plans: each customer in turn before another one of a route, after the last one, or in a route of its own."""

    def grown(plan: list[list[int]], rest: list[int]) -> Iterator[list[list[int]]]:
        if not rest:
            yield plan
            return
        node, *more = rest
        for at, route in enumerate(plan):
            if fleet.load([*route, node]) <= fleet.capacity:
                for place in range(len(route) + 1):
                    yield from grown([*plan[:at], [*route[:place], node, *route[place:]], *plan[at + 1 :]], more)
        if fleet.load([node]) <= fleet.capacity:
            yield from grown([*plan, [node]], more)

    return grown([], fleet.customers)


@dataclass(frozen=True)
class Certificate:
    """What all leaves of a tree of cases share."""

    fleet: recheck.Fleet
    costs: Cost
    families: list[list[int]]
    lists: list[list[int]]  # a customer, and those that it remembers
    rows: list[tuple[list[int], list[int]]]  # a set, and the further customers that keep it
    scale: int
    unit: int

    @cached_property
    def runs(self) -> Runs:
        return Runs(self)


class Runs:
    """Where runs may go, whatever a leaf's numbers are. Without lists and rows, a run only remembers the customer before its
    last one."""

    def __init__(self, certificate: Certificate) -> None:
        fleet, self.rows = certificate.fleet, certificate.rows
        self.depot = fleet.depot
        whole = {node: fleet.demands[node] // certificate.unit for node in fleet.customers}
        light = sum(load == 0 for load in whole.values())
        self.load = {node: load * (light + 1) or 1 for node, load in whole.items()}
        self.room = fleet.capacity // certificate.unit * (light + 1) + light
        self.stands = bool(certificate.lists or certificate.rows)
        self.near = {node: frozenset(others) for node, *others in certificate.lists}
        self.steps = cache(self.steps_of)

    def starts(self) -> Iterator[State]:
        """The states of runs after their first customer."""
        for node, load in self.load.items():
            if load <= self.room:
                yield load, node, frozenset(), frozenset(row for row, (nodes, _) in enumerate(self.rows) if node in nodes)

    def steps_of(self, state: State) -> list[tuple[list[int], State]]:
        """The rows that a run pays for with one customer more, and its state then."""
        load, last, remembered, opened = state
        found = []
        for node, more in self.load.items():
            if node == last or node in remembered or load + more > self.room:
                continue
            paid, still = [], set()
            for row, (nodes, others) in enumerate(self.rows):
                if row in opened and node in nodes:
                    paid.append(row)
                if node in (*nodes, *others) and (row in opened) != (node in nodes):
                    still.add(row)
            known = (remembered | {last}) & self.near.get(node, frozenset()) if self.stands else frozenset({last})
            found.append((paid, (load + more, node, known, frozenset(still))))
        return found

    @cached_property
    def table(self) -> tuple[list[Link], list[Step], list[list[Step]]]:
        """All links, the first steps of runs, and the steps from each state. Heavier states come first, so that those after a
        step are known before it. The depot at the end of a run has place 0."""
        found, rest = set(self.starts()), list(self.starts())
        while rest:
            fresh = {after for _, after in self.steps(rest.pop())} - found
            found |= fresh
            rest += fresh
        states = sorted(found, key=lambda state: -state[0])
        places, links = {state: place for place, state in enumerate(states, 1)}, dict[Link, int]()
        link = lambda i, j, *paid: links.setdefault((i, j, paid), len(links))
        firsts = [(link(self.depot, state[1]), places[state]) for state in self.starts()]
        home = lambda last: (link(last, self.depot), 0)
        steps = [[home(state[1]), *((link(state[1], after[1], *paid), places[after]) for paid, after in self.steps(state))]
                 for state in states]
        return list(links), firsts, steps


class Leaf:
    """A leaf with its numbers by index."""

    def __init__(self, certificate: Certificate, of: dict[int, int]) -> None:
        self.own, self.of, self.fleet, self.runs = certificate, of, certificate.fleet, certificate.runs
        self.stands = self.runs.stands
        self.gains = [of.get(self.fleet.count + FIRST_ROW + row, 0) for row in range(len(certificate.rows))]
        self.most = 2 * of.get(self.fleet.depot, 0)
        self.weight = cache(self.weight_of)

    def multiplier(self, family: int) -> int:
        return self.of.get(self.fleet.count + 1 + family, 0)

    def weight_of(self, i: int, j: int) -> int:
        crossed = (self.multiplier(at) for at, nodes in enumerate(self.own.families) if (i in nodes) != (j in nodes))
        return self.own.scale * self.own.costs(i, j) + self.of.get(i, 0) + self.of.get(j, 0) - sum(crossed)

    def starts(self) -> Iterator[tuple[int, State]]:
        """The weights and states of runs after their first customer."""
        for state in self.runs.starts():
            yield self.weight(self.fleet.depot, state[1]), state

    def steps(self, state: State) -> Iterator[tuple[int, State]]:
        """What a run weighs more with one customer more, and its state then."""
        for paid, after in self.runs.steps(state):
            yield self.weight(state[1], after[1]) + sum(self.gains[row] for row in paid), after

    def least(self) -> int | None:
        """The least weight of a run, or None if there is none."""
        links, firsts, states = self.runs.table
        weights = [self.weight(i, j) + sum(self.gains[row] for row in paid) for i, j, paid in links]
        rests = [0]  # from each state to the depot
        for steps in states:
            rests.append(min([weights[link] + rests[after] for link, after in steps]))
        return min([weights[link] + rests[after] for link, after in firsts], default=None)

    def kept_states(self) -> int:
        """How many states have starts of runs that could end below twice the depot's potential by the cheapest ways home, on
        which nothing is remembered."""

        @cache
        def home(load: int, last: int) -> int:
            onward = [(node, load + more) for node, more in self.runs.load.items() if node != last and load + more <= self.runs.room]
            return min([self.weight(last, self.fleet.depot), *(self.weight(last, node) + home(sum_, node) for node, sum_ in onward)])

        layers: list[dict[State, int]] = [{} for _ in range(self.runs.room + 1)]

        def offer(weight: int, state: State) -> None:
            layer = layers[state[0]]
            if weight + home(state[0], state[1]) < self.most and weight < layer.get(state, weight + 1):
                layer[state] = weight

        for weight, state in self.starts():
            offer(weight, state)
        for layer in layers:
            for state, weight in layer.items():
                for cost, after in self.steps(state):
                    offer(weight + cost, after)
        return sum(map(len, layers))

    def bound(self, limits: list[Limit]) -> int | None:
        """The bound under these limits, or None if there is no run."""
        fleet, least = self.fleet, self.least()
        if self.stands:
            least = self.most if least is None else min(least, self.most)
        if least is None:
            return None
        need = lambda nodes: max(1, -(-sum(fleet.demands[node] for node in nodes) // fleet.capacity))
        each = (least - self.most) * (need(fleet.customers) if least > self.most else len(fleet.customers))
        value = each - 2 * sum(self.of.get(node, 0) for node in fleet.customers)
        value -= sum(gain * (len(nodes) // 2) for gain, (nodes, _) in zip(self.gains, self.own.rows))
        for at, nodes in enumerate(self.own.families):
            low = max([2 * need(nodes), *(2 * t + 2 for family, t, is_most in limits if family == at and not is_most)])
            high = min([2 * (fleet.count - 1), *(2 * t for family, t, is_most in limits if family == at and is_most)])
            value += self.multiplier(at) * (low if self.multiplier(at) > 0 else high)
        return -(-value // self.own.scale)
