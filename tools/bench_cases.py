#!/usr/bin/env python3
"""Cases for a design on the bench: opened, slowed, lagged and settled.

    python3 tools/bench_cases.py DIR

writes DIR/stdin, a case a line, DIR/stdout, what the bench answers to each,
and prints how often each answer is given.  A line has a design's words in
hexadecimal, a colon, and moves parted by semicolons:

    slow F    lag S S ..    settle

The bench below is made from the following rules alone, so that another one
can be held against it.

A design has n nodes; a(i,j) is the delay of node i's feed from node j, b(i)
of its feed from the input, which is source 32, and c that of the output, read
at node o.  Opening asks:

    7 has every cycle of nodes a delay above 0?  (the shown cycle's length, 0)

The cycle that is shown has distinct nodes, each fed by the next with delay 0
and the last by the first.  Stored designs have at most one such cycle.

An open bench has a factor K, 1 at first, and a lag d(i) for each node, 0 at
first.  The current delays are K a(i,j) + d(i) - d(j), K b(i) + d(i) and K c.
K and the lag of node o are the timing.

The firing order lists the nodes: next is always the lowest node not yet
listed whose feeds of current delay 0 from nodes are all listed.  A node's
rank is its place in the order.

The verdict is systolic, or the lowest breach.  C1: every feed from a node has
a current delay of at least 1; by node, then source.  C2: the feeds from one
source have distinct current delays; by source, then the pair's smaller and
larger node.  C1 comes before C2.

The array program is a list of words, bits 31 to 28 the kind: a head (8: n, K
from bit 6), a line for each node and then the input (9: source, length from
bit 6), the cells in firing order (10: node, operation from bit 5, lag from
bit 13), each followed by its taps by source (11: source, delay from bit 6),
the output (12: node, delay from bit 6) and the end (13: the number of words).
A line is as long as the greatest delay at which a tap or the output reads its
source.

The moves, with the questions of each in order:

    slow f   K and all lags are multiplied by f              12 13 10 11
    lag s    s(i) is added to each d(i)                       8  9 10 11
    settle   slow by n, then lag by the ranks before it      13 10 11

     8 are there n shifts?                                   (given, n)
     9 is each from -4095 to 4095?                           (index, 0)
    10 is each lag to come 0 to 4095?                        (node, 0)
    11 is each delay to come 0 to 4095?                      (node, source)
    12 is the factor 1 to 64?                                (factor, 0)
    13 is K times the factor, for settle n, at most 64?      (K, factor)

Question 11 goes by node and then by source; the output comes last, as 32 and
its node.  The first no, at the lowest place, is the refusal, and a refused
move changes nothing.  Question 7 is of the layer design, 8 to 13 of bench.
"""

from __future__ import annotations

import sys
from collections import Counter
from collections.abc import Callable, Iterator
from dataclasses import dataclass, field
from itertools import chain, product
from pathlib import Path
from random import Random
from typing import NamedTuple, Union

from word_cases import INPUT, MOST_NODES, WORKED, Design, Node
from word_cases import bare_design, save, sources, write

MOST_FACTOR = 64
MOST_LAG = 4095
MOST_DELAY = 4095
MOST_SHIFT = 4095

Row = list[int]


# ---------------------------------------------------------------- zero delays


def zero_feeds(design: Design) -> list[set[int]]:
    """By node, the nodes that feed it with delay 0."""
    return [
        {source for source, delay in node.feeds.items() if delay == 0 and source != INPUT}
        for node in design.nodes
    ]


def on_zero_cycles(design: Design) -> set[int]:
    """The nodes that are reached from themselves through zero delays."""
    feeds = zero_feeds(design)

    def reached(start: int) -> set[int]:
        met: set[int] = set()
        waiting = list(feeds[start])
        while waiting:
            node = waiting.pop()
            if node not in met:
                met.add(node)
                waiting.extend(feeds[node])
        return met

    return {node for node in range(len(feeds)) if node in reached(node)}


def is_zero_cycle(design: Design, cycle: Row) -> bool:
    feeds = zero_feeds(design)
    following = [*cycle[1:], *cycle[:1]]
    distinct = len(set(cycle)) == len(cycle) > 0
    return distinct and all(j in feeds[i] for i, j in zip(cycle, following))


def only_zero_cycle(design: Design) -> Row | None:
    """The cycle of zero delays from its lowest node on, if there is just one."""
    among = on_zero_cycles(design)
    feeds = [fed & among for fed in zero_feeds(design)]
    if not among or any(len(feeds[node]) != 1 for node in among):
        return None
    cycle = [min(among)]
    while (node := min(feeds[cycle[-1]])) != cycle[0]:
        cycle.append(node)
    return cycle if len(cycle) == len(among) else None


# ---------------------------------------------------------------- bench


class Refused(Exception):
    def __init__(self, question: int, place: int, other: int) -> None:
        super().__init__(question, place, other)
        self.question = question
        layer = "design" if question == 7 else "bench"
        self.line = f"refused {question} {layer} {place} {other}"


def ask(question: int, place: int, other: int, answer: bool) -> None:
    if not answer:
        raise Refused(question, place, other)


class Slow(NamedTuple):
    factor: int

    def __str__(self) -> str:
        return f"slow {self.factor}"


class Lag(NamedTuple):
    shifts: tuple[int, ...]

    def __str__(self) -> str:
        return " ".join(map(str, ("lag", *self.shifts)))


class Settle(NamedTuple):
    def __str__(self) -> str:
        return "settle"


Move = Union[Slow, Lag, Settle]


@dataclass
class Bench:
    design: Design
    factor: int = 1
    lags: Row = field(default_factory=list)

    def __post_init__(self) -> None:
        self.lags = self.lags or [0] * self.count

    @property
    def count(self) -> int:
        return len(self.design.nodes)

    def lag_of(self, source: int) -> int:
        return 0 if source == INPUT else self.lags[source]

    def delays(self) -> dict[tuple[int, int], int]:
        """The current delay by node and source, ascending."""
        return {
            (i, j): self.factor * delay + self.lags[i] - self.lag_of(j)
            for i, node in enumerate(self.design.nodes)
            for j, delay in sorted(node.feeds.items())
        }

    def output_delay(self) -> int:
        return self.factor * self.design.output[1]

    def order(self) -> Row:
        waits = [(i, j) for (i, j), delay in self.delays().items() if delay == 0 and j != INPUT]
        listed: Row = []
        while len(listed) < self.count:
            held = {i for i, j in waits if j not in listed}
            listed.append(min(set(range(self.count)) - held - set(listed)))
        return listed

    def ranks(self) -> Row:
        order = self.order()
        return [order.index(node) for node in range(self.count)]

    def verdict(self) -> str:
        delays = self.delays()
        for (i, j), delay in delays.items():
            if j != INPUT and delay == 0:
                return f"C1 {i} {j}"
        clashes = [
            (j, i, k)
            for (i, j), delay in delays.items()
            for k in range(i + 1, self.count)
            if delays.get((k, j)) == delay
        ]
        return "C2 {} {} {}".format(*min(clashes)) if clashes else "systolic"

    def program(self) -> Row:
        delays = self.delays()
        node, _ = self.design.output
        reads = [(j, delay) for (_, j), delay in delays.items()] + [(node, self.output_delay())]
        words = [8 << 28 | self.factor << 6 | self.count]
        for source in [*range(self.count), INPUT]:
            words.append(9 << 28 | max([d for j, d in reads if j == source], default=0) << 6 | source)
        for i in self.order():
            words.append(10 << 28 | self.lags[i] << 13 | self.design.nodes[i].operation << 5 | i)
            words += [11 << 28 | delay << 6 | j for (k, j), delay in delays.items() if k == i]
        words.append(12 << 28 | self.output_delay() << 6 | node)
        return [*words, 13 << 28 | len(words) + 1]

    def check(self) -> None:
        for node, lag in enumerate(self.lags):
            ask(10, node, 0, 0 <= lag <= MOST_LAG)
        for (node, source), delay in self.delays().items():
            ask(11, node, source, 0 <= delay <= MOST_DELAY)
        ask(11, INPUT, self.design.output[0], self.output_delay() <= MOST_DELAY)

    def slowed(self, factor: int) -> Bench:
        return Bench(self.design, self.factor * factor, [lag * factor for lag in self.lags])

    def lagged(self, shifts: Row) -> Bench:
        return Bench(self.design, self.factor, [lag + s for lag, s in zip(self.lags, shifts)])

    def result(self, move: Move) -> Bench:
        """The bench after a move, its lags and delays not yet asked for."""
        if isinstance(move, Slow):
            ask(12, move.factor, 0, 1 <= move.factor <= MOST_FACTOR)
            ask(13, self.factor, move.factor, self.factor * move.factor <= MOST_FACTOR)
            return self.slowed(move.factor)
        if isinstance(move, Lag):
            ask(8, len(move.shifts), self.count, len(move.shifts) == self.count)
            for index, shift in enumerate(move.shifts):
                ask(9, index, 0, abs(shift) <= MOST_SHIFT)
            return self.lagged(list(move.shifts))
        ask(13, self.factor, self.count, self.factor * self.count <= MOST_FACTOR)
        return self.slowed(self.count).lagged(self.ranks())

    def made(self, move: Move) -> Bench:
        result = self.result(move)
        result.check()
        if isinstance(move, Settle):
            assert result.verdict() == "systolic"
        return result

    def lines(self) -> Iterator[str]:
        feeds = (f" {i}<{j}:{delay}" for (i, j), delay in self.delays().items())
        yield f"timing {self.factor} {self.lags[self.design.output[0]]}"
        yield " ".join(map(str, ["lags", *self.lags]))
        yield f"delays{''.join(feeds)} out:{self.output_delay()}"
        yield " ".join(map(str, ["order", *self.order()]))
        yield " ".join(map(str, ["ranks", *self.ranks()]))
        yield self.verdict()
        yield " ".join(["program", *(f"{word:08X}" for word in self.program())])


# ---------------------------------------------------------------- cases


class Answer(NamedTuple):
    action: str  # open, slow, lag or settle
    question: int  # 0 where it is accepted
    line: str


class Case:
    """A design with moves, answered as they are added."""

    def __init__(self, design: Design, *moves: Move) -> None:
        self.design = design
        self.moves: list[Move] = []
        self.answers: list[Answer] = []
        self.cycle = only_zero_cycle(design)
        self.bench = Bench(design)
        self.is_open = not on_zero_cycles(design)
        if self.is_open:
            self.answers.append(Answer("open", 0, "ok"))
            for move in moves:
                self.add(move)
        elif self.cycle is not None:
            refused = Refused(7, len(self.cycle), 0)
            self.answers.append(Answer("open", 7, refused.line))

    def add(self, move: Move) -> Case:
        assert self.is_open
        action = str(move).split()[0]
        self.moves.append(move)
        try:
            self.bench = self.bench.made(move)
            self.answers.append(Answer(action, 0, "ok"))
        except Refused as refused:
            self.answers.append(Answer(action, refused.question, refused.line))
        return self

    @property
    def is_determined(self) -> bool:
        """Whether the rules alone say what is printed."""
        return self.is_open or self.cycle is not None

    def given(self) -> str:
        words = " ".join(f"{word:08X}" for word in write(self.design))
        return f"{words}:{';'.join(map(str, self.moves))}\n"

    def printed(self) -> Iterator[str]:
        assert self.is_determined
        yield from (answer.line for answer in self.answers)
        if self.is_open:
            yield from self.bench.lines()
        elif self.cycle is not None:
            yield " ".join(map(str, ["cycle", *self.cycle]))


# ---------------------------------------------------------------- designs


Delays = Callable[[Random], int]


def small_delay(rng: Random) -> int:
    return rng.choice((0, 0, 0, 1, 1, 2, 3))


def edge_delay(rng: Random) -> int:
    """Delays that some K up to 64 brings to the limit or past it."""
    return rng.choice((0, 0, 1, 2, 63, 64, 64, 65, 127, 128, 255, 255))


def any_delay(rng: Random) -> int:
    return rng.choice((0, 0, 0, 1, 255, rng.randrange(256)))


def zero_delay(rng: Random) -> int:
    return 0 if rng.random() < 0.9 else 1


def shuffled(rng: Random, n: int) -> Row:
    return rng.sample(range(n), n)


def open_design(rng: Random, n: int, feeds: float, delays: Delays) -> Design:
    """A design with about so many feeds a node; in some order of the nodes,
    none is fed with delay 0 by itself or a later one."""
    place = shuffled(rng, n)
    nodes = [Node(rng.randrange(256)) for _ in range(n)]
    for i, node in enumerate(nodes):
        for j in sources(n):
            if rng.random() * (n + 1) < feeds:
                earlier = j == INPUT or place[j] < place[i]
                delay = delays(rng)
                node.feeds[j] = delay if earlier else max(1, delay)
    return Design(nodes, (rng.randrange(n), delays(rng)))


def size(rng: Random) -> int:
    return rng.choice((1, 2, 2, 3, 3, 4, 5, 6, 7, 8, rng.randint(9, 31), MOST_NODES))


def some_design(rng: Random) -> Design:
    n = size(rng)
    delays = rng.choice((small_delay, small_delay, edge_delay, any_delay, zero_delay))
    return open_design(rng, n, rng.choice((0.5, 1.5, 3)), delays)


def small_design(rng: Random) -> Design:
    delays = rng.choice((small_delay, zero_delay))
    return open_design(rng, rng.randint(1, 6), rng.choice((1, 2, 4)), delays)


def dense_design(rng: Random, n: int) -> Design:
    """Every feed that may have delay 0 is there and has it."""
    return open_design(rng, n, n + 1, lambda _: 0)


def chain_design(order: Row, delay: int) -> Design:
    """Each node of a list fed by the one before it, the first by the input."""
    nodes = [Node(0) for _ in order]
    for source, node in zip([INPUT, *order], order):
        nodes[node].feeds[source] = delay
    return Design(nodes, (order[-1], delay))


def one_feed_design(delay: int, source: int = 0, output: int = 0) -> Design:
    """Node 1 of two is fed by a source."""
    return Design([Node(0), Node(0, {source: delay})], (1, output))


# ---------------------------------------------------------------- moves


def any_row(rng: Random, n: int, most: int) -> Row:
    return [rng.randint(-most, most) for _ in range(n)]


def fitting_row(rng: Random, bench: Bench, most: int) -> Row:
    """Shifts to lags up to a limit, lowered until no delay between nodes is
    below 0."""
    lags = [rng.randint(0, most) for _ in range(bench.count)]
    again = True
    while again:
        again = False
        for i, node in enumerate(bench.design.nodes):
            for j, delay in node.feeds.items():
                if j != INPUT and lags[j] > bench.factor * delay + lags[i]:
                    lags[j] = bench.factor * delay + lags[i]
                    again = True
    return [lag - now for lag, now in zip(lags, bench.lags)]


def one_shift(n: int, node: int, shift: int) -> Row:
    row = [0] * n
    row[node] = shift
    return row


def lag_edge_row(rng: Random, bench: Bench) -> Row:
    """One lag brought to an end of its range, or one past it."""
    node = rng.randrange(bench.count)
    lag = rng.choice((-1, 0, MOST_LAG, MOST_LAG + 1))
    shift = max(-MOST_SHIFT, min(MOST_SHIFT, lag - bench.lags[node]))
    return one_shift(bench.count, node, shift)


def delay_edge_row(rng: Random, bench: Bench) -> Row:
    """One delay brought to an end of its range, or one past it."""
    delays = bench.delays()
    if not delays:
        return [0] * bench.count
    (i, j), delay = rng.choice(list(delays.items()))
    change = rng.choice((-1, 0, 1, MOST_DELAY, MOST_DELAY + 1)) - delay
    change = max(-MOST_SHIFT, min(MOST_SHIFT, change))
    if j == INPUT or rng.random() < 0.5:
        return one_shift(bench.count, i, change)
    return one_shift(bench.count, j, -change)


def shared_row(rng: Random, bench: Bench) -> Row:
    """The same shift for all."""
    return [rng.choice((1, 2, 100, 1000, 2048, 4095, -1, -100, -4095))] * bench.count


WRONG_SHIFTS = (4096, -4096, 4097, 5000, -65536, 2**31 - 1, -(2**31))


def wrong_shift_row(rng: Random, bench: Bench) -> Row:
    """One shift or more out of range, among others at the ends of it."""
    row = [rng.choice((0, 1, 4095, -4095)) for _ in range(bench.count)]
    for _ in range(rng.choice((1, 1, 2, 3))):
        row[rng.randrange(bench.count)] = rng.choice(WRONG_SHIFTS)
    return row


def wrong_length_row(rng: Random, bench: Bench) -> Row:
    """A row too short or too long, at times with a shift out of range."""
    n = bench.count
    length = rng.choice((0, 1, n - 1, n + 1, n + 1, 32, 33, 40))
    return [rng.choice((0, 1, 4095, 4096)) for _ in range(length + (length == n))]


def some_row(rng: Random, bench: Bench) -> Row:
    pick = rng.random()
    if pick < 0.5:
        return fitting_row(rng, bench, rng.choice((1, 3, 20, 64, 300, MOST_LAG)))
    if pick < 0.58:
        return any_row(rng, bench.count, rng.choice((1, 5, MOST_SHIFT)))
    rows = (
        lag_edge_row,
        delay_edge_row,
        delay_edge_row,
        shared_row,
        wrong_shift_row,
        wrong_length_row,
    )
    return rng.choice(rows)(rng, bench)


def some_factor(rng: Random, bench: Bench) -> int:
    """Factors that K can still take, then ones at the limits."""
    room = MOST_FACTOR // bench.factor
    if rng.random() < 0.6:
        return rng.choice((1, 2, 2, 3, room, rng.randint(1, room)))
    return rng.choice((0, 1, 63, 64, 65, room, room + 1, rng.randint(1, 64), 2**16, 2**32 - 1))


def some_move(rng: Random, bench: Bench) -> Move:
    pick = rng.random()
    if pick < 0.25:
        return Settle()
    if pick < 0.5:
        return Slow(some_factor(rng, bench))
    return Lag(tuple(some_row(rng, bench)))


def moved_case(rng: Random, design: Design, moves: int) -> Case:
    case = Case(design)
    for _ in range(moves):
        case.add(some_move(rng, case.bench))
    return case


# ---------------------------------------------------------------- worked by hand


def worked_case() -> Case:
    """Node 0 is fed by itself with delay 1 and by node 1 with delay 0, node 1
    by the input with delay 0, and node 0 is the output."""
    moves = (Settle(), Slow(3), Lag((-3, 0)), Lag((-3, 1)), Lag((1,)), Slow(11), Settle())
    case = Case(WORKED, *moves)
    assert list(case.printed()) == [
        "ok",
        "ok",
        "ok",
        "ok",
        "refused 10 bench 0 0",
        "refused 8 bench 1 2",
        "refused 13 bench 6 11",
        "ok",
        "timing 12 1",
        "lags 1 0",
        "delays 0<0:12 0<1:1 1<32:0 out:0",
        "order 0 1",
        "ranks 0 1",
        "systolic",
        "program 80000302 90000300 90000041 90000020 A0002000 B0000300 B0000041 A0000021 B0000020 C0000000 D000000B",
    ]
    return case


def worked_cases() -> Iterator[Case]:
    yield worked_case()
    yield Case(WORKED)
    for n in range(1, MOST_NODES + 1):
        yield Case(chain_design(list(range(n)), 0), Settle(), Settle())
        yield Case(chain_design(list(reversed(range(n))), 0), Settle(), Settle())


# ---------------------------------------------------------------- limits


def factor_cases() -> Iterator[Case]:
    """Every factor, and every pair around the limit of K."""
    design = one_feed_design(1)
    for factor in (*range(67), 2**16 + 1, 2**31, 2**32 - 1):
        yield Case(design, Slow(factor))
    for first in range(1, 65):
        room = MOST_FACTOR // first
        yield Case(design, Slow(first), Slow(room + 1), Slow(room))
    for n in range(1, MOST_NODES + 1):
        room = MOST_FACTOR // n
        yield Case(chain_design(list(range(n)), 0), Slow(room), Settle())
        yield Case(chain_design(list(range(n)), 0), Slow(room + 1), Settle())


def slow_limit_cases() -> Iterator[Case]:
    """The least factor that is too much for a delay or a lag, and the one
    before it."""
    for delay in (63, 64, 65, 127, 128, 254, 255):
        room = min(MOST_DELAY // delay, MOST_FACTOR)
        for design in (
            one_feed_design(delay),
            one_feed_design(delay, source=1),
            one_feed_design(delay, source=INPUT),
            one_feed_design(0, output=delay),
            one_feed_design(delay, output=delay),
        ):
            yield Case(design, Slow(room + 1), Slow(room), Slow(2))
            yield Case(design, Lag((0, 5)), Slow(room), Lag((0, -1)), Slow(room + 1))
    for lag in (63, 64, 65, 255, 1365, 2047, 2048, MOST_LAG):
        room = min(MOST_LAG // lag, MOST_FACTOR)
        for row in ((lag, lag), (lag - 1, lag), (lag, lag + 1)):
            yield Case(one_feed_design(0), Lag(row), Slow(room + 1), Slow(room), Settle())


def output_limit_cases() -> Iterator[Case]:
    """The same for the output's delay, read at each node in turn."""
    for n in (1, 2, 5, MOST_NODES):
        for delay in (63, 64, 65, 128, 255):
            room = min(MOST_DELAY // delay, MOST_FACTOR)
            for node in sorted({0, n // 2, n - 1}):
                design = Design(chain_design(list(range(n)), 0).nodes, (node, delay))
                yield Case(design, Slow(room + 1), Slow(room))
                yield Case(design, Slow(room // n + 1), Settle(), Settle())


def shift_cases() -> Iterator[Case]:
    """Each end of a shift's range and one past it, then back."""
    for n in (1, 2, 5, MOST_NODES):
        chained = chain_design(list(range(n)), 0)
        for shift in (4095, 4096, -4095, -4096, -1, 2**31 - 1, -(2**31)):
            whole = Lag((shift,) * n)
            yield Case(chained, whole, Lag((-MOST_SHIFT,) * n), whole)
            for node in sorted({0, n // 2, n - 1}):
                alone = Lag(tuple(one_shift(n, node, shift)))
                yield Case(chained, alone)
                yield Case(bare_design(n, node), alone)


def length_cases() -> Iterator[Case]:
    """Every number of shifts up to 40, in range and out of it."""
    for n in (1, 2, 3, 8, 31, MOST_NODES):
        design = chain_design(list(range(n)), 1)
        for shift in (0, 4096):
            yield Case(design, *(Lag((shift,) * length) for length in range(41)))


def feed_limit_cases() -> Iterator[Case]:
    """A delay between two nodes moved from either end of it, to the limits
    and past them."""
    for delay in (0, 1, 63, 64, 255):
        design = one_feed_design(delay)
        for late in (0, delay, delay + 1, MOST_LAG):
            most, least = MOST_DELAY - delay, late - delay
            for own in (0, most, most + 1, least, least - 1):
                if 0 <= own <= MOST_LAG:
                    yield Case(design, Lag((late, own)), Settle())
    for delay in (0, 1, 64, 255):
        for own in (MOST_DELAY - delay, MOST_DELAY - delay + 1):
            if own <= MOST_LAG:
                yield Case(one_feed_design(delay, source=INPUT), Lag((0, own)), Slow(2))
                yield Case(one_feed_design(delay, source=1), Lag((0, own)), Slow(2))


def settle_limit_cases() -> Iterator[Case]:
    """Lags that settling brings to the limit and past it."""
    for n in (2, 3, 5, 8, 16, 31, MOST_NODES):
        for order in (list(range(n)), list(reversed(range(n)))):
            for spare in (-1, 0, 1):
                lag = (MOST_LAG - (n - 1)) // n + spare
                yield Case(chain_design(order, 0), Lag((lag,) * n), Settle(), Settle())
    for delay in (63, 64, 65, 128, 255):
        for n in (2, 16, 31, MOST_NODES):
            room = MOST_FACTOR // n
            design = chain_design(list(range(n)), 0)
            design.nodes[0].feeds[n - 1] = delay
            yield Case(design, Slow(room), Settle())
            yield Case(design, Settle(), Slow(room), Settle())
            design = Design(design.nodes, (0, delay))
            yield Case(design, Settle(), Slow(room))


# ---------------------------------------------------------------- drawn


def tiny_designs() -> Iterator[Design]:
    """Every design of one or two nodes with delays 0 and 1 between them."""
    choices = (None, 0, 1)
    for n in (1, 2):
        for delays in product(choices, repeat=n * n):
            rows = [delays[i * n : i * n + n] for i in range(n)]
            nodes = [Node(0) for _ in rows]
            for node, row in zip(nodes, rows):
                node.feeds = {j: delay for j, delay in enumerate(row) if delay is not None}
            yield Design(nodes, (n - 1, 1))


def tiny_cases() -> Iterator[Case]:
    for design in tiny_designs():
        n = len(design.nodes)
        yield Case(design, Settle(), Slow(2), Settle())
        for row in product((-1, 0, 1), repeat=n):
            yield Case(design, Lag(row), Lag((1,) * n), Lag(row), Settle())


def moved_cases(rng: Random) -> Iterator[Case]:
    for _ in range(900):
        yield moved_case(rng, some_design(rng), rng.choice((1, 2, 3, 4, 5, 8)))
    for _ in range(500):
        yield moved_case(rng, small_design(rng), rng.choice((2, 4, 8, 12)))
    for _ in range(100):
        design = small_design(rng)
        output = (rng.randrange(len(design.nodes)), edge_delay(rng))
        yield moved_case(rng, Design(design.nodes, output), 6)
    for _ in range(60):
        yield moved_case(rng, open_design(rng, MOST_NODES, 3, any_delay), 4)
    for n in (4, 8, 16, 24, MOST_NODES):
        for _ in range(6):
            yield moved_case(rng, dense_design(rng, n), 5)
    yield moved_case(rng, open_design(rng, MOST_NODES, MOST_NODES + 1, any_delay), 6)


def lagged_cases(rng: Random) -> Iterator[Case]:
    """Rows that fit, one after the other, so that delays of 0 come and go."""
    for _ in range(300):
        case = Case(rng.choice((small_design, some_design))(rng))
        for _ in range(rng.randint(1, 4)):
            most = rng.choice((1, 2, 3, 8, 64))
            case.add(Lag(tuple(fitting_row(rng, case.bench, most))))
        yield case.add(Settle())


def order_cases(rng: Random) -> Iterator[Case]:
    """Chains and dense designs in any order of their nodes."""
    for n in range(1, MOST_NODES + 1):
        yield Case(chain_design(shuffled(rng, n), 0), Settle())
        yield Case(open_design(rng, n, 2, zero_delay), Settle())
    for n in range(2, 17):
        yield Case(dense_design(rng, n))
        yield Case(dense_design(rng, n), Settle())


def with_cycle(design: Design, cycle: Row) -> Design:
    for i, j in zip(cycle, [*cycle[1:], *cycle[:1]]):
        design.nodes[i].feeds[j] = 0
    return design


def cyclic_design(rng: Random) -> Design:
    """A design with a cycle of zero delays among its other feeds."""
    n = size(rng)
    delays = rng.choice((small_delay, any_delay, zero_delay))
    design = open_design(rng, n, rng.choice((0, 0.5, 1.5, 3)), delays)
    return with_cycle(design, shuffled(rng, n)[: rng.randint(1, n)])


def ring_designs(rng: Random) -> Iterator[Design]:
    """Rings through some nodes or all, and self-feeds."""
    for n in range(1, MOST_NODES + 1):
        yield with_cycle(chain_design(list(range(n)), 1), list(range(n)))
        yield with_cycle(open_design(rng, n, 1, edge_delay), [rng.randrange(n)])
        cycle = shuffled(rng, n)[: rng.randint(1, n)]
        yield with_cycle(open_design(rng, n, 2, lambda _: 255), cycle)


def back_fed_design(rng: Random, n: int) -> Design:
    """All that may have delay 0 has it, and one node feeds the one before it
    too: the one cycle stands among many paths."""
    order = shuffled(rng, n)
    nodes = [Node(0) for _ in order]
    for at, node in enumerate(order):
        nodes[node].feeds = dict.fromkeys([*order[:at], INPUT], 0)
    at = rng.randrange(n - 1)
    nodes[order[at]].feeds[order[at + 1]] = 0
    return Design(nodes, (order[0], 0))


def cycle_cases(rng: Random) -> Iterator[Case]:
    """Designs that are not opened, those with more than one such cycle left
    out."""
    designs = chain(
        ring_designs(rng),
        (back_fed_design(rng, n) for n in range(2, 15)),
        (cyclic_design(rng) for _ in range(500)),
    )
    for design in designs:
        yield Case(design, Settle())


# ---------------------------------------------------------------- all of them


def all_cases() -> Iterator[Case]:
    # Each group that draws has its own seed, so that one can grow alone.
    yield from worked_cases()
    yield from factor_cases()
    yield from slow_limit_cases()
    yield from output_limit_cases()
    yield from shift_cases()
    yield from length_cases()
    yield from feed_limit_cases()
    yield from settle_limit_cases()
    yield from tiny_cases()
    yield from moved_cases(Random(1))
    yield from lagged_cases(Random(2))
    yield from order_cases(Random(3))
    yield from cycle_cases(Random(4))


def stored_cases() -> list[Case]:
    """The cases whose answers the rules settle, the same one kept once."""
    return list({case.given(): case for case in all_cases() if case.is_determined}.values())


def case_lines(cases: list[Case]) -> Iterator[str]:
    for number, case in enumerate(cases):
        yield f"case {number}\n"
        yield from (f"{line}\n" for line in case.printed())


def counts(cases: list[Case]) -> Counter[tuple[str, int]]:
    return Counter((answer.action, answer.question) for case in cases for answer in case.answers)


def main(directory: str) -> None:
    cases = stored_cases()
    target = Path(directory)
    target.mkdir(parents=True, exist_ok=True)
    save(target / "stdin", (case.given() for case in cases))
    save(target / "stdout", case_lines(cases))
    print(f"{len(cases)} cases")
    for (action, question), times in sorted(counts(cases).items()):
        answer = f"refused by {question}" if question else "accepted"
        print(f"{action}: {times} {answer}")


if __name__ == "__main__":
    if len(sys.argv) != 2:
        sys.exit("usage: bench_cases.py DIR")
    main(sys.argv[1])
