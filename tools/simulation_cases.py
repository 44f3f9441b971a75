#!/usr/bin/env python3
"""Cases for the simulator: the values of a design in time, on each library of
cells.  machine_cases.py writes them out, with those of the machine.

A case is a line of nine fields, parted by colons:

    simulate
    the words of a design, in hexadecimal
    the moves of its bench, all accepted, as bench_cases.py has them
    the cells: whole, float or compare, with "bubble " before it for bubbles
    the weights: W,SOURCE of all operations, then OPERATION,W,SOURCE of some;
        nothing for compare cells
    the rest row
    the inputs
    how many places the history has
    how many places the output row has

A row has its elements parted by spaces, and TIMES*ELEMENT for the same one
many times.  Elements and weights are decimal, those of float cells the bits
in eight hexadecimal digits; a dash is an absent element.

The answer to a case is either a refusal or a line "v" of the nodes' values
for each time and a line "out" of the outputs.  Of a run of more than 300 times
only the last 300 are printed.  Last comes "kept", with the number of places
of the history and of the output row, from the first that is not to be written
on, that still hold what the buffers were filled with: all of them.

The simulator below is made from the following rules alone, so that another
one can be held against it.

A design has n nodes; a(i,j) is the delay of node i's feed from node j, b(i)
of its feed from the input, which is source 32, and c that of the output, read
at node o.  Every cycle of nodes has a delay above 0.  A rest row has one
element for each node and then one for the input.  Before time 0 every source
has its rest value.  At a time t from 0 on, v(i,t) is node i's operation on
v(j,t-a(i,j)) for each node j that feeds it, ascending, and then on x(t-b(i))
if the input feeds it.  The output is v(o,t-c).  A bench's factor and lags play
no part in this.

The simulator is given a rest row and inputs for T times.  It writes v(i,t) to
place t*n+i of a history and the output at t to place t of an output row, and
to no other.  It asks:

    17 has the rest row n+1 elements?               (given, n+1)
    20 is T at most 65536?                          (T, 65536)
    21 has the history n*T places or more?          (given, n*T)
    22 has the output row T places or more?         (given, T)

The first no is the refusal, of the layer machine, and leaves both buffers as
they were.

Whole cells have signed 32-bit elements, and a weight with one source for each
operation.  The value is the sum of the operands, that of the weighted source
first multiplied by the weight, modulo 2^32.

Float cells are the same in 32-bit floats.  From +0 on, for each operand in
order, the product is rounded and then the sum.  NaN is one value, 7FC00000.

Compare cells have unsigned 16-bit elements.  An even operation has the
greatest operand, or 0 if there is none, an odd one the least, or 65535.

With bubbles an element may be absent.  A value is present exactly when all
operands are, and is then that of the cells below.
"""

from __future__ import annotations

import struct
from collections import Counter
from collections.abc import Callable, Iterator
from dataclasses import dataclass, field
from itertools import groupby, product
from math import isnan
from random import Random
from typing import NamedTuple, Optional

from bench_cases import Bench, Lag, Move, Refused as MoveRefused, Settle, Slow
from bench_cases import any_delay, chain_design, dense_design, fitting_row, on_zero_cycles
from bench_cases import open_design, small_delay, small_design, some_design, tiny_designs
from word_cases import INPUT, MOST_NODES, WORKED, WORKED_WORDS, Design, Node, Words
from word_cases import bare_design, sources, write

MOST_TIMES = 65536
MOST_SHOWN = 300
RUN = 4  # as many equal elements in a row are written as one item

Element = Optional[int]  # a number, or a float's bits; None where it is absent
Row = list[Element]
Operands = list[tuple[int, int]]  # source and element


# ---------------------------------------------------------------- floats


NAN = 0x7FC00000
INFINITY = 0x7F800000
SIGN = 0x80000000


def number(bits: int) -> float:
    return struct.unpack(">f", struct.pack(">I", bits))[0]


def nearest(value: float) -> int:
    """The bits of the 32-bit float that is nearest to a 64-bit one."""
    if isnan(value):
        return NAN
    try:
        return struct.unpack(">I", struct.pack(">f", value))[0]
    except OverflowError:
        return INFINITY if value > 0 else INFINITY | SIGN


# Of 32-bit floats a 64-bit product is exact, and a 64-bit sum precise enough
# to be rounded again.


def float_product(one: int, other: int) -> int:
    return nearest(number(one) * number(other))


def float_sum(one: int, other: int) -> int:
    return nearest(number(one) + number(other))


# ---------------------------------------------------------------- cells


class Weight(NamedTuple):
    weight: int
    source: int


class Cells(NamedTuple):
    """A library: the value of an operation, and an element as it is written."""

    name: str
    value: Callable[[int, Weight, Operands], int]
    text: Callable[[int], str]
    filler: int  # what buffers are filled with


def whole_value(_operation: int, weight: Weight, operands: Operands) -> int:
    total = sum(x * (weight.weight if j == weight.source else 1) for j, x in operands)
    return (total + 2**31) % 2**32 - 2**31


def float_value(_operation: int, weight: Weight, operands: Operands) -> int:
    total = 0
    for source, element in operands:
        if source == weight.source:
            element = float_product(element, weight.weight)
        total = float_sum(total, element)
    return total


def compare_value(operation: int, _weight: Weight, operands: Operands) -> int:
    elements = [element for _, element in operands]
    return max(elements, default=0) if operation % 2 == 0 else min(elements, default=65535)


WHOLE = Cells("whole", whole_value, str, -1234567890)
FLOAT = Cells("float", float_value, "{:08X}".format, nearest(-12345.678))
COMPARE = Cells("compare", compare_value, str, 12345)
NO_WEIGHT = Weight(0, 255)


@dataclass
class Library:
    cells: Cells
    bubble: bool = False
    common: Weight = NO_WEIGHT
    own: dict[int, Weight] = field(default_factory=dict)

    @property
    def name(self) -> str:
        return f"bubble {self.cells.name}" if self.bubble else self.cells.name

    def value(self, operation: int, operands: list[tuple[int, Element]]) -> Element:
        present = [(source, element) for source, element in operands if element is not None]
        if len(present) < len(operands):
            return None
        return self.cells.value(operation, self.own.get(operation, self.common), present)

    def text(self, element: Element) -> str:
        return "-" if element is None else self.cells.text(element)

    def row_text(self, row: Row) -> str:
        runs = [(self.text(element), len([*run])) for element, run in groupby(row)]
        return " ".join(
            f"{length}*{text}" if length >= RUN else " ".join([text] * length)
            for text, length in runs
        )

    def line(self, name: str, row: Row) -> str:
        return " ".join([name, *map(self.text, row)])

    def weights_text(self) -> str:
        if self.cells is COMPARE:
            return ""
        tables = [("", self.common), *((f"{op},", self.own[op]) for op in sorted(self.own))]
        return " ".join(f"{op}{self.text(w)},{source}" for op, (w, source) in tables)


# ---------------------------------------------------------------- values


class Values:
    """The values of a design, each found when it is asked for."""

    def __init__(self, design: Design, library: Library, rests: Row, inputs: Row) -> None:
        assert not on_zero_cycles(design)
        self.design = design
        self.library = library
        self.rests = rests
        self.inputs = inputs
        self.known: dict[tuple[int, int], Element] = {}

    def rest(self, source: int) -> Element:
        return self.rests[len(self.design.nodes) if source == INPUT else source]

    def places(self, node: int, time: int) -> list[tuple[int, int]]:
        """The source and the time of each operand; the input sorts last."""
        return [(j, time - delay) for j, delay in sorted(self.design.nodes[node].feeds.items())]

    def is_open(self, source: int, time: int) -> bool:
        return source != INPUT and time >= 0 and (source, time) not in self.known

    def heard(self, source: int, time: int) -> Element:
        if time < 0:
            return self.rest(source)
        return self.inputs[time] if source == INPUT else self.known[source, time]

    def fire(self, node: int, time: int) -> None:
        operands = [(j, self.heard(j, then)) for j, then in self.places(node, time)]
        operation = self.design.nodes[node].operation
        self.known[node, time] = self.library.value(operation, operands)

    def value(self, node: int, time: int) -> Element:
        """By recursion on the operands, with a stack of its own."""
        asked = [(node, time)]
        while asked:
            operands = self.places(*asked[-1])
            missing = [place for place in operands if self.is_open(*place)]
            if missing:
                asked += missing
            else:
                self.fire(*asked.pop())
        return self.known[node, time]

    def output(self, time: int) -> Element:
        node, delay = self.design.output
        return self.value(node, time - delay) if time >= delay else self.rest(node)


# ---------------------------------------------------------------- cases


class Refused(Exception):
    def __init__(self, question: int, given: int, needed: int) -> None:
        super().__init__(question, given, needed)
        self.question = question
        self.line = f"refused {question} machine {given} {needed}"


def ask(question: int, given: int, needed: int, answer: bool) -> None:
    if not answer:
        raise Refused(question, given, needed)


def given_line(
    task: str, words: Words, moves: tuple[Move, ...], library: Library, *own: str
) -> str:
    """A line: what every case has, then what its task has of its own."""
    fields = (
        task,
        " ".join(f"{word:08X}" for word in words),
        ";".join(map(str, moves)),
        library.name,
        library.weights_text(),
        *own,
    )
    return ":".join(fields) + "\n"


@dataclass
class Case:
    design: Design
    library: Library
    rests: Row
    inputs: Row
    history: int
    outputs: int
    moves: tuple[Move, ...] = ()

    def check(self) -> None:
        n, t = len(self.design.nodes), len(self.inputs)
        ask(17, len(self.rests), n + 1, len(self.rests) == n + 1)
        ask(20, t, MOST_TIMES, t <= MOST_TIMES)
        ask(21, self.history, n * t, self.history >= n * t)
        ask(22, self.outputs, t, self.outputs >= t)

    def question(self) -> int:
        """The question that refuses it, 0 where it is accepted."""
        try:
            self.check()
        except Refused as refused:
            return refused.question
        return 0

    def given(self) -> str:
        return given_line(
            "simulate",
            write(self.design),
            self.moves,
            self.library,
            self.library.row_text(self.rests),
            self.library.row_text(self.inputs),
            str(self.history),
            str(self.outputs),
        )

    def values(self) -> Iterator[str]:
        """The lines of a run; the latest value is asked for first."""
        values = Values(self.design, self.library, self.rests, self.inputs)
        n, t = len(self.design.nodes), len(self.inputs)
        outputs = [values.output(time) for time in reversed(range(t))][::-1]
        for time in range(max(0, t - MOST_SHOWN), t):
            yield self.library.line("v", [values.value(node, time) for node in range(n)])
        yield self.library.line("out", outputs[-MOST_SHOWN:])
        yield f"kept {self.history - n * t} {self.outputs - t}"

    def printed(self) -> Iterator[str]:
        try:
            self.check()
        except Refused as refused:
            yield refused.line
            yield f"kept {self.history} {self.outputs}"
        else:
            yield from self.values()


def fitting(
    design: Design,
    library: Library,
    rests: Row,
    inputs: Row,
    moves: tuple[Move, ...] = (),
    more: tuple[int, int] = (0, 0),
) -> Case:
    """A case whose buffers have so many places more than are needed."""
    t = len(inputs)
    return Case(
        design, library, rests, inputs, len(design.nodes) * t + more[0], t + more[1], moves
    )


# ---------------------------------------------------------------- elements


WHOLE_ENDS = (0, 1, -1, 2, 2**31 - 1, 2**31 - 2, -(2**31), -(2**31) + 1, 2**30, 2**16, -(2**16))
COMPARE_ENDS = (0, 1, 255, 256, 32767, 32768, 65534, 65535)
FLOAT_ENDS = (
    0x00000000,  # 0
    0x00000001,  # the least above 0
    0x00000002,
    0x00400000,
    0x007FFFFF,  # the greatest subnormal
    0x00800000,  # the least normal
    0x00800001,
    0x33800000,  # 2^-24
    0x33800001,
    0x3F000000,  # 1/2
    0x3F7FFFFF,
    0x3F800000,  # 1
    0x3F800001,
    0x4B7FFFFF,  # 2^24 - 1
    0x4B800000,
    0x4B800001,
    0x73800000,  # 2^104, the step of the greatest ones
    0x73000000,  # half of it
    0x72FFFFFF,
    0x7F000000,  # 2^127
    0x7F7FFFFF,  # the greatest
    0x7F800000,  # infinity
)
FLOATS = [*FLOAT_ENDS, *(bits | SIGN for bits in FLOAT_ENDS), NAN]

Draw = Callable[[Random], int]


def small_whole(rng: Random) -> int:
    return rng.randint(-9, 9)


def any_whole(rng: Random) -> int:
    return rng.choice((rng.choice(WHOLE_ENDS), rng.randint(-(2**31), 2**31 - 1)))


def any_compare(rng: Random) -> int:
    return rng.choice((rng.choice(COMPARE_ENDS), rng.randrange(65536), rng.randrange(100)))


def plain_float(rng: Random) -> int:
    """Of either sign, with full digits, so that most sums are rounded."""
    return rng.randrange(2) << 31 | rng.randint(124, 131) << 23 | rng.randrange(2**23)


def round_float(rng: Random) -> int:
    """Small multiples of 1/4."""
    return nearest(rng.randint(-40, 40) / 4)


def any_float(rng: Random) -> int:
    """NaN now and then, and no other bits that mean one."""
    bits = rng.choice((rng.choice(FLOATS), rng.randrange(2**32), plain_float(rng)))
    return nearest(number(bits))


def tiny_float(rng: Random) -> int:
    """Subnormal, or little above."""
    return rng.randrange(2) << 31 | rng.randrange(2**24 + 2**22)


def great_float(rng: Random) -> int:
    """Near the greatest."""
    return rng.randrange(2) << 31 | rng.randint(251, 254) << 23 | rng.randrange(2**23)


DRAWS: dict[str, tuple[Draw, ...]] = {
    "whole": (small_whole, small_whole, any_whole),
    "float": (plain_float, plain_float, round_float, any_float, tiny_float, great_float),
    "compare": (any_compare,),
}


def some_row(rng: Random, draw: Draw, length: int, absent: float) -> Row:
    return [None if rng.random() < absent else draw(rng) for _ in range(length)]


def some_weight(rng: Random, draw: Draw, n: int) -> Weight:
    """On a source of the design, the input often, or on one that it has not."""
    source = rng.choice((INPUT, rng.randrange(n), rng.randrange(n), rng.choice((n, 31, 33, 255))))
    return Weight(draw(rng), source)


def some_library(rng: Random, design: Design, cells: Cells, bubble: bool, draw: Draw) -> Library:
    """Weights for all operations of a design, at times in common."""
    if cells is COMPARE:
        return Library(cells, bubble)
    n = len(design.nodes)
    operations = sorted({node.operation for node in design.nodes if rng.random() < 0.8})
    weights = {operation: some_weight(rng, draw, n) for operation in operations}
    return Library(cells, bubble, some_weight(rng, draw, n), weights)


KINDS = [(cells, bubble) for cells in (WHOLE, FLOAT, COMPARE) for bubble in (False, True)]


# ---------------------------------------------------------------- moves


def some_move(rng: Random, bench: Bench) -> Move:
    pick = rng.randrange(3)
    if pick == 0:
        return Settle()
    if pick == 1:
        return Slow(rng.choice((1, 2, 3, 5)))
    return Lag(tuple(fitting_row(rng, bench, rng.choice((1, 3, 20, 300)))))


def some_moves(rng: Random, design: Design) -> tuple[Move, ...]:
    """A few moves, those that the bench refuses left out."""
    bench = Bench(design)
    moves: list[Move] = []
    for _ in range(rng.choice((0, 0, 1, 1, 2, 3))):
        move = some_move(rng, bench)
        try:
            bench = bench.made(move)
            moves.append(move)
        except MoveRefused:
            pass
    return tuple(moves)


# ---------------------------------------------------------------- drawn


def some_case(rng: Random, design: Design, cells: Cells, bubble: bool, most: int) -> Case:
    """A run of as many times as keep the history below so many places."""
    n = len(design.nodes)
    draw = rng.choice(DRAWS[cells.name])
    absent = rng.choice((0.02, 0.1, 0.4)) if bubble else 0
    t = rng.randint(1, max(1, min(30, most // n)))
    more = (rng.choice((0, 0, 1, n, 40)), rng.choice((0, 0, 1, 40)))
    return fitting(
        design,
        some_library(rng, design, cells, bubble, draw),
        some_row(rng, draw, n + 1, absent),
        some_row(rng, draw, t, absent),
        some_moves(rng, design),
        more,
    )


def drawn_designs(rng: Random) -> Iterator[Design]:
    for _ in range(110):
        yield small_design(rng)
    for _ in range(70):
        yield some_design(rng)
    for n in range(1, MOST_NODES + 1, 2):
        yield open_design(rng, n, 2, small_delay)
    for n in (1, 2, 3, 5, 8, 13):
        yield dense_design(rng, n)
    yield open_design(rng, MOST_NODES, 3, any_delay)


def drawn_cases(rng: Random) -> Iterator[Case]:
    for design in drawn_designs(rng):
        for cells, bubble in KINDS:
            yield some_case(rng, design, cells, bubble, 60)


def full_cases(rng: Random) -> Iterator[Case]:
    """Every feed there; with delays of 1 at least, and with as many of 0 as
    can be."""
    for n, (cells, bubble) in zip((5, 9, 14, 20, 26, MOST_NODES), KINDS):
        yield some_case(rng, open_design(rng, n, n + 1, small_delay), cells, bubble, 100)
        yield some_case(rng, dense_design(rng, n), cells, bubble, 100)


def with_input(design: Design, fed: int, delay: int) -> Design:
    """The same with its first nodes fed by the input too."""
    nodes = [
        Node(node.operation, {**node.feeds, INPUT: delay} if i < fed else dict(node.feeds))
        for i, node in enumerate(design.nodes)
    ]
    return Design(nodes, design.output)


def tiny_cases(rng: Random) -> Iterator[Case]:
    """Every design of one or two nodes with delays 0 and 1 between them, one
    node or both fed by the input."""
    for design, fed, delay in product(tiny_designs(), (1, 2), (0, 1)):
        if not on_zero_cycles(design):
            n = len(design.nodes)
            weight = Weight(rng.choice((2, 3, -1)), rng.choice((0, n - 1, INPUT)))
            rests: Row = [10, 100, 1000][: n + 1]
            library = Library(WHOLE, common=weight)
            yield fitting(with_input(design, fed, delay), library, rests, [1, 2, 3, 4])


# ---------------------------------------------------------------- worked by hand


def worked_library(cells: Cells, two: int, three: int, bubble: bool = False) -> Library:
    """Operation 0 weighs node 0, operation 1 the input."""
    return Library(cells, bubble, NO_WEIGHT, {0: Weight(two, 0), 1: Weight(three, INPUT)})


def worked_case() -> Case:
    """Node 1 is three times the input, and node 0 twice its last value and
    node 1."""
    case = fitting(WORKED, worked_library(WHOLE, 2, 3), [0] * 3, [1] * 3, more=(2, 1))
    assert write(WORKED) == WORKED_WORDS
    assert [*case.printed()] == ["v 3 3", "v 9 3", "v 21 3", "out 3 9 21", "kept 2 1"]
    return case


def worked_float_case() -> Case:
    library = worked_library(FLOAT, 0x40000000, 0x40400000)
    case = fitting(WORKED, library, [0] * 3, [0x3F800000] * 3)
    assert [*case.printed()][-2] == "out 40400000 41100000 41A80000"
    return case


def worked_bubble_case() -> Case:
    """An absent input is heard for ever, since node 0 feeds itself."""
    library = worked_library(WHOLE, 2, 3, bubble=True)
    case = fitting(WORKED, library, [5, None, None], [1, 1, None, 1])
    assert [*case.printed()] == ["v 13 3", "v 29 3", "v - -", "v - 3", "out 13 29 - -", "kept 0 0"]
    return case


def worked_compare_case() -> Case:
    """Node 0 is the greatest so far; node 1 the least of one input."""
    case = fitting(WORKED, Library(COMPARE), [4, 9, 9], [3, 7, 6])
    assert [*case.printed()] == ["v 4 3", "v 7 7", "v 7 6", "out 4 7 7", "kept 0 0"]
    return case


def worked_refusal_case() -> Case:
    case = Case(WORKED, worked_library(WHOLE, 2, 3), [0] * 3, [1] * 3, 5, 2)
    assert [*case.printed()] == ["refused 21 machine 5 6", "kept 5 2"]
    return case


def worked_cases() -> Iterator[Case]:
    yield worked_case()
    yield worked_float_case()
    yield worked_bubble_case()
    yield worked_compare_case()
    yield worked_refusal_case()
    for moves in ((Settle(),), (Slow(64),), (Lag((7, 7)),), (Settle(), Lag((-1, 0)), Slow(3))):
        yield fitting(WORKED, worked_library(WHOLE, 2, 3), [4, 5, 6], [1, 2, 3, 4], moves)


# ---------------------------------------------------------------- delays and rests


DELAYS = (0, 1, 2, 3, 31, 32, 33, 64, 127, 128, 254, 255)


def counting(start: int, length: int) -> Row:
    return list(range(start, start + length))


def delay_cases() -> Iterator[Case]:
    """One delay, of the input, of a node to itself, of a node to another and
    of the output, in runs that end before it and after it."""
    library = Library(WHOLE, common=Weight(2, 0))
    for delay in DELAYS:
        designs = [
            Design([Node(0, {INPUT: delay})], (0, 0)),
            Design([Node(0, {INPUT: 0})], (0, delay)),
            Design([Node(0, {INPUT: 1}), Node(0, {0: delay})], (1, 1)),
            Design([Node(0, {0: max(1, delay), INPUT: 0})], (0, 0)),
        ]
        for design, t in product(designs, (delay // 2 + 1, delay + 1, delay + 3)):
            rests = counting(-3, len(design.nodes) + 1)
            yield fitting(design, library, rests, counting(10, t), more=(3, 3))


def late_cases() -> Iterator[Case]:
    """Delays beyond the end of the run: every value is of the rests."""
    for delay, t in product((4, 100, 255), (1, 2, 4)):
        design = Design(
            [Node(1, {0: delay, 1: delay, INPUT: delay}), Node(0, {0: delay})], (1, delay)
        )
        for cells in (WHOLE, FLOAT, COMPARE):
            yield fitting(design, Library(cells), [7, 8, 9], counting(100, t))
        absent: Row = [None, 8, 9]
        yield fitting(design, Library(WHOLE, True), absent, counting(100, t))


def rest_place_cases() -> Iterator[Case]:
    """Each source by itself feeds the last of n nodes from before time 0,
    then each node is the output."""
    for n in (1, 2, 5, 31, MOST_NODES):
        rests = counting(50, n + 1)
        for source in sources(n):
            design = bare_design(n, n - 1)
            design.nodes[-1].feeds[source] = 1
            yield fitting(design, Library(WHOLE), rests, [1, 2])
        for node in range(n):
            design = Design(bare_design(n).nodes, (node, 1))
            yield fitting(design, Library(WHOLE), rests, [1, 2])


def no_feed_cases() -> Iterator[Case]:
    """Nodes with no operand are 0, or what compare cells have."""
    for (cells, bubble), n in product(KINDS, (1, 2, 7, MOST_NODES)):
        rests: Row = [None if bubble else 3] * (n + 1)
        for delay in (0, 1):
            design = Design(bare_design(n).nodes, (n - 1, delay))
            yield fitting(design, Library(cells, bubble), rests, rests[:1] * 3, more=(1, 1))


def no_time_cases() -> Iterator[Case]:
    """No inputs: nothing is written, whatever the buffers are."""
    for (cells, bubble), more in product(KINDS, product((0, 1, 9), (0, 1, 9))):
        yield fitting(WORKED, Library(cells, bubble), [1, 2, 3], [], more=more)


# ---------------------------------------------------------------- lengths


def length_cases() -> Iterator[Case]:
    """Each length right, one too short, one too long and far off, in all
    combinations."""
    for n, t in ((1, 1), (2, 3), (5, 2), (MOST_NODES, 1)):
        design = chain_design(list(range(n)), 0)
        for rests, history, outputs in product(
            (0, 1, n, n + 1, n + 2, 40),
            (0, t, n * t - 1, n * t, n * t + 1, 100),
            (0, t - 1, t, t + 1, n * t),
        ):
            yield Case(design, Library(WHOLE), [1] * rests, [2] * t, history, outputs)


def every_length_cases() -> Iterator[Case]:
    """Lengths that fit or not on every library, all elements absent where
    they may be."""
    for (cells, bubble), rests, less, fewer in product(KINDS, (0, 2, 3, 4), (0, 1), (0, 1)):
        row: Row = [None if bubble else 1]
        library = Library(cells, bubble)
        yield Case(WORKED, library, row * rests, row * 3, 6 - less, 3 - fewer)


def rest_length_cases() -> Iterator[Case]:
    """Every number of rests up to 40, with buffers that fit and that do not,
    and with no inputs."""
    for n, rests in product((1, 2, 31, MOST_NODES), range(41)):
        design = bare_design(n)
        for t, places in ((1, n), (1, 0), (0, 0)):
            yield Case(design, Library(COMPARE), [1] * rests, [2] * t, places, places)


def many_time_cases() -> Iterator[Case]:
    """One time more than the most and far more, with other questions."""
    library = Library(WHOLE)
    for n, t in product((1, 2), (MOST_TIMES + 1, MOST_TIMES + 2, 2 * MOST_TIMES, 10**6)):
        design = bare_design(n)
        inputs: Row = [0] * t
        for rests, history, outputs in product((n, n + 1), (0, n * t - 1, n * t), (0, t)):
            yield Case(design, library, [1] * rests, inputs, history, outputs)


def most_time_cases() -> Iterator[Case]:
    """As many times as there may be: accepted, and refused for a buffer."""
    library = worked_library(WHOLE, 3, -5)
    inputs: Row = [1] * (MOST_TIMES - 3) + [2, 3, 4]
    yield fitting(WORKED, library, [1, 2, 3], inputs, more=(1, 1))
    alone = Design([Node(0, {INPUT: 255})], (0, 255))
    yield fitting(alone, Library(WHOLE), [1, 2], [5] * (MOST_TIMES - 400) + counting(1, 400))
    zeros: Row = [0] * MOST_TIMES
    for n in (1, 2, MOST_NODES):
        design = bare_design(n)
        rests: Row = [0] * (n + 1)
        least = n * MOST_TIMES
        for history, outputs in product((0, least - 1, least), (0, MOST_TIMES - 1)):
            yield Case(design, Library(COMPARE), rests, zeros, history, outputs)


# ---------------------------------------------------------------- weights


def operation_cases() -> Iterator[Case]:
    """All 256 operations, each with a weight of its own; then each without."""
    for start in range(0, 256, MOST_NODES):
        nodes = [Node(start + place, {INPUT: 0}) for place in range(MOST_NODES)]
        own = {start + place: Weight(1000 + start + place, INPUT) for place in range(MOST_NODES)}
        design = Design(nodes, (0, 0))
        yield fitting(design, Library(WHOLE, own=own), [0] * 33, [1, -1])
        yield fitting(design, Library(WHOLE, common=Weight(3, INPUT)), [0] * 33, [5])
        yield fitting(design, Library(COMPARE), [0] * 33, [5])
        bare = Design([Node(node.operation) for node in nodes], (0, 0))
        yield fitting(bare, Library(COMPARE), [5] * 33, [5])


def source_weight_cases() -> Iterator[Case]:
    """A weight on each source, and on ones that no design has, where a node is
    fed by all sources or by every second one."""
    weighted = (*range(36), 63, 64, 128, 254, 255)
    for n, step, source in product((1, 3, MOST_NODES), (1, 2), weighted):
        nodes = [Node(0) for _ in range(n)]
        nodes[-1].feeds = dict.fromkeys(sources(n)[step - 1 :: step], 1)
        library = Library(WHOLE, common=Weight(1000, source))
        yield fitting(Design(nodes, (n - 1, 0)), library, counting(1, n + 1), [7])


# ---------------------------------------------------------------- whole cells


def wrap_cases() -> Iterator[Case]:
    """Products and sums past both ends."""
    summed = Design([Node(0, {0: 1, INPUT: 0})], (0, 0))
    for weight, source in product(WHOLE_ENDS, (0, INPUT)):
        library = Library(WHOLE, common=Weight(weight, source))
        for rest in (0, 1, 2**31 - 1, -(2**31)):
            yield fitting(summed, library, [rest, 0], list(WHOLE_ENDS))
    nodes = [Node(0, {INPUT: 0}), Node(0, {0: 0}), Node(0, {0: 0, 1: 0, INPUT: 0})]
    for end in (2**31 - 1, -(2**31)):
        library = Library(WHOLE, common=Weight(end, 0))
        yield fitting(Design(nodes, (2, 0)), library, [0] * 4, [end, 1, -1, 2, end])


# ---------------------------------------------------------------- float cells


def pairs(elements: list[int]) -> Row:
    """A row in which each element stands beside each, itself too."""
    row: Row = []
    for place, one in enumerate(elements):
        row.append(one)
        row += [element for other in elements[place + 1 :] for element in (one, other)]
    return row


def float_sum_cases() -> Iterator[Case]:
    """Each sum of two ends, and of three neighbours in the row."""
    late = {0: Node(0, {INPUT: 1}), 1: Node(0, {INPUT: 2})}
    two = Design([late[0], Node(0, {0: 0, INPUT: 0})], (1, 0))
    row = pairs(FLOATS)
    for start in range(0, len(row), MOST_SHOWN - 1):
        part = row[start : start + MOST_SHOWN]
        yield fitting(two, Library(FLOAT), [0x3F800000, SIGN, SIGN], part)
    three = Design([late[0], late[1], Node(0, {0: 0, 1: 0, INPUT: 0})], (2, 0))
    yield fitting(three, Library(FLOAT), [SIGN] * 4, list(FLOATS))


def float_product_cases() -> Iterator[Case]:
    """Each product of two ends, alone and before or after another operand."""
    late = Node(255, {INPUT: 1})
    alone, last = Node(0, {INPUT: 0}), Node(1, {1: 0, INPUT: 0})
    first = Node(2, {1: 0, INPUT: 0})
    design = Design([alone, late, last, first], (0, 0))
    for weight in FLOATS:
        own = {0: Weight(weight, INPUT), 1: Weight(weight, INPUT), 2: Weight(weight, 1)}
        yield fitting(design, Library(FLOAT, own=own), [SIGN] * 5, list(FLOATS))


def float_rest_cases() -> Iterator[Case]:
    """Every end as a rest of the output node, of a feed and of the input."""
    design = Design([Node(0, {0: 2, INPUT: 1}), Node(0, {INPUT: 1})], (0, 2))
    for rest, other in product(FLOATS, (0, SIGN, 0x3F800000)):
        for rests in ([rest, 0, other], [other, 0, rest]):
            yield fitting(design, Library(FLOAT), [*rests], [SIGN, SIGN, SIGN])


def float_round_cases(rng: Random) -> Iterator[Case]:
    """Sums of many operands, which come out otherwise in another order, and
    products that are rounded before they are added."""
    for _ in range(60):
        n = rng.randint(2, 12)
        nodes = [Node(place, {INPUT: place + 1}) for place in range(n)]
        nodes.append(Node(200, dict.fromkeys([*range(n), INPUT], 0)))
        design = Design(nodes, (n, 0))
        draw = rng.choice((plain_float, plain_float, tiny_float, great_float))
        own = {200: Weight(plain_float(rng), rng.choice((INPUT, rng.randrange(n))))}
        rests, inputs = some_row(rng, draw, n + 2, 0), some_row(rng, draw, 4, 0)
        yield fitting(design, Library(FLOAT, own=own), rests, inputs)


# ---------------------------------------------------------------- bubbles


def absent_place_cases() -> Iterator[Case]:
    """Three operands, each absent or present, beside a node with no operand
    and one that hears it."""
    nodes = [Node(0, {INPUT: 2}), Node(1, {INPUT: 1}), Node(2, {0: 0, 1: 0, INPUT: 0}), Node(3)]
    design = Design([*nodes, Node(5, {3: 1})], (2, 1))
    for inputs in product((9, None), (8, None), (7, None)):
        for cells, rest in product((WHOLE, FLOAT, COMPARE), (6, None)):
            yield fitting(design, Library(cells, True), [rest] * 6, [*inputs, *inputs])


def absent_rest_cases() -> Iterator[Case]:
    """Each rest by itself absent, or present, on a ring that hears all of
    them."""
    for n, node in ((n, node) for n in (1, 2, 4) for node in range(n + 1)):
        nodes = [Node(i, {(i + 1) % n: i + 1, INPUT: i}) for i in range(n)]
        for cells, turned in product((WHOLE, COMPARE), (False, True)):
            rests: Row = [None if (i == node) != turned else i + 1 for i in range(n + 1)]
            design = Design(nodes, (n - 1, 2))
            yield fitting(design, Library(cells, True), rests, counting(10, 8))


# ---------------------------------------------------------------- all of them


def all_cases() -> Iterator[Case]:
    # Each group that draws has its own seed, so that one can grow alone.
    yield from worked_cases()
    yield from delay_cases()
    yield from late_cases()
    yield from rest_place_cases()
    yield from no_feed_cases()
    yield from no_time_cases()
    yield from length_cases()
    yield from every_length_cases()
    yield from rest_length_cases()
    yield from many_time_cases()
    yield from most_time_cases()
    yield from operation_cases()
    yield from source_weight_cases()
    yield from wrap_cases()
    yield from float_sum_cases()
    yield from float_product_cases()
    yield from float_rest_cases()
    yield from float_round_cases(Random(1))
    yield from absent_place_cases()
    yield from absent_rest_cases()
    yield from tiny_cases(Random(2))
    yield from full_cases(Random(3))
    yield from drawn_cases(Random(4))


def counts(cases: list[Case]) -> Counter[str]:
    """How often each library is given each answer."""
    answers: Counter[str] = Counter()
    for case in cases:
        question = case.question()
        answer = f"refused by {question}" if question else "accepted"
        answers[f"simulate, {case.library.name}: {answer}"] += 1
    return answers
