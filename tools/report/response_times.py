"""The response-time equations of a design (Joseph and Pandya 1986; Audsley et al. 1993), with blocking by ceilings and jitter of threads that are
requested. The program solves them by proved code; this module solves them with other numbers, and none of it is proved.
"""
from __future__ import annotations

from dataclasses import dataclass, replace

from design_reader import Design, Operation, Pricing


@dataclass(frozen=True)
class Numbers:
    """The numbers of a design on which its bounds depend: of its threads, and the costs of sections."""
    periods: list[int]
    deadlines: list[int]
    jitters: list[int]
    costs: list[int]
    sections: dict[Operation, int]

    def with_one(self, name: str, thread: int, number: int) -> Numbers:
        """The numbers with another one of a thread in the list of this name."""
        numbers = list(getattr(self, name))
        numbers[thread] = number
        return replace(self, **{name: numbers})


def order_of(deadlines: list[int]) -> list[int]:
    """The threads by deadline-monotonic priority, the greatest first."""
    return sorted(range(len(deadlines)), key=lambda thread: (deadlines[thread], thread))


class Model:
    """The response-time equations of a design."""

    def __init__(self, design: Design) -> None:
        self.design = design
        self.starters = design.starters()
        self.users = design.users()
        self.entering: dict[Operation, list[int]] = {}
        for thread, entered in enumerate(design.sections()):
            for one in entered:
                self.entering.setdefault(one, []).append(thread)
        self.blocked: dict[tuple[int, ...], list[tuple[Operation, int, int]]] = {}
        attributes = [thread.attributes for thread in design.threads]
        self.numbers = self.priced(Pricing(design), Numbers(
            [own.get('PERIOD', own.get('SEPARATION', 0)) for own in attributes], [own['DEADLINE'] for own in attributes],
            [own.get('ARRIVAL_JITTER', 0) for own in attributes], [], {}))

    def priced(self, pricing: Pricing, numbers: Numbers) -> Numbers:
        """The numbers with other costs of bodies."""
        finish = self.design.costs['FINISH']
        costs = [pricing.block(thread.thread.block) + finish for thread in self.design.threads if thread.thread is not None]
        return replace(numbers, costs=costs, sections={one: pricing.operation(one) for one in self.entering})

    def blockings(self, order: list[int], numbers: Numbers) -> list[int]:
        """The blocking of each place of an order: the longest section of a thread below whose ceiling reaches it."""
        if tuple(order) not in self.blocked:
            self.blocked[tuple(order)] = self.blocked_places(order)
        blockings = [0] * len(order)
        for one, first, end in self.blocked[tuple(order)]:
            for place in range(first, end):
                blockings[place] = max(blockings[place], numbers.sections[one])
        return blockings

    def blocked_places(self, order: list[int]) -> list[tuple[Operation, int, int]]:
        """The places that each section may block: from that of the ceiling to that above the lowest thread that enters it."""
        place = {thread: number for number, thread in enumerate(order)}
        lowest = {one: max(place[thread] for thread in threads) for one, threads in self.entering.items()}
        return [(one, min(place[user] for user in self.users[one[0]]), last) for one, last in lowest.items()]

    def responses(self, numbers: Numbers) -> list[int] | None:
        """The least response times within the limits, and None where there are none."""
        order = order_of(numbers.deadlines)
        blockings = self.blockings(order, numbers)
        responses, jitters = [0] * len(order), list(numbers.jitters)
        before: list[int] = []
        while before != responses:
            before = list(responses)
            for place, thread in enumerate(order):
                starter = self.starters[thread]
                if starter is not None:
                    jitters[thread] = jitters[starter] + responses[starter]
                above = [(jitters[other], numbers.periods[other], numbers.costs[other]) for other in order[:place]]
                limit = min(numbers.deadlines[thread], numbers.periods[thread] - jitters[thread])
                response = solve(numbers.costs[thread] + blockings[place], above, responses[thread], limit)
                if response is None:
                    return None
                responses[thread] = response
        return responses

    def passes(self, numbers: Numbers) -> bool:
        """Whether all threads keep their limits."""
        return self.responses(numbers) is not None


def solve(own: int, above: list[tuple[int, int, int]], least: int, limit: int) -> int | None:
    """The least solution of an equation at or above a number, and None where it is over a limit. Threads above have jitter, period and cost."""
    response = max(own, least)
    while response <= limit:
        right = own + sum(-(-(response + jitter) // period) * cost for jitter, period, cost in above)
        if right == response:
            return response
        response = right
    return None
