#!/usr/bin/env python3
"""Cases for the machine: programs that are loaded, started and stepped, on each
library of cells; and with them those of simulation_cases.py.

    python3 tools/machine_cases.py DIR

writes DIR/stdin, a case a line, DIR/stdout, what the machine or the simulator
answers to each, and prints how often each answer is given.  A line of the
machine has seven fields, parted by colons:

    emit or load
    the words of a design, of whose bench the program is emitted; or a program's
    the moves of the bench, all accepted; nothing where a program is given
    the cells, and
    the weights, as simulation_cases.py has them
    how many registers there are
    the events, parted by semicolons

    start ELEMENT ELEMENT ..    starts from a rest row
    step ELEMENT ELEMENT ..     steps on one input after the other
    lend COUNT                  from now on lends so many registers, the first;
                                before, all are lent

The answer to a case is either the refusal of its load, or "loaded" with the
number of registers needed; then for each start "ok" or its refusal, for each
input of a step the element put out or its refusal; and last "cycle" with the
next one, and "registers" with all that they hold, which is filler at first.

The machine below is made from the following rules alone, so that another one
can be held against it.  How a program is loaded is said in load_cases.py.

The registers needed are every source's line in order, the nodes and then the
input, newest value first; then each node's present value in order.

A start fills them from a rest row, each line and present value with its
source's rest value, leaves other elements as they are and sets the cycle to 0.
It asks:

    17 has the rest row n+1 elements?               (given, n+1)
    18 are there as many registers as are needed?   (given, needed)

A step takes an input element.  The cells fire in the program's order.  One
whose lag is above the cycle holds its present value; any other's present value
becomes its operation on what its taps read, ascending by source.  A tap of
delay 0 reads the present value or the input element, one of delay p the value
of p cycles before.  What the output reads after all cells is put out.  Then
every line moves on by one, and the cycle rises by one.  It asks 18, and 19,
which no run here is long enough for.  A refused call changes nothing.

A program that a bench emits keeps time: after a start, with L the lag of the
output's node, what is put out at cycle K*t+r+L is the y(t) of the bench's
design, from the same rest row, on the inputs x(t) that were taken at the cycles
K*t+r, for every r below K.  Here that is asserted of each run, y(t) being found
by recursion, as simulation_cases.py finds it.
"""

from __future__ import annotations

import sys
from collections import Counter
from collections.abc import Iterator
from dataclasses import dataclass, field
from itertools import accumulate, chain, product
from pathlib import Path
from random import Random
from typing import NamedTuple, Optional, Union

import load_cases
import simulation_cases
from bench_cases import Bench, Lag, Move, Settle, Slow
from bench_cases import chain_design, on_zero_cycles, tiny_designs
from load_cases import Cell, Program, Refused as LoadRefused
from load_cases import greatest_delays, load, random_program, small_number, write_program
from simulation_cases import COMPARE, DRAWS, FLOAT, KINDS, NO_WEIGHT, WHOLE
from simulation_cases import Element, Library, Refused, Row, Values, Weight
from simulation_cases import ask, counting, drawn_designs, given_line, some_library, some_moves
from simulation_cases import some_row, with_input, worked_library
from word_cases import INPUT, MOST_NODES, WORKED, Design, Node, Words
from word_cases import bare_design, save, sources, write


# ---------------------------------------------------------------- machine


class Machine:
    """A loaded machine with registers of its own, parted into what is theirs
    to hold: the lines, the present values, and the elements that are left."""

    def __init__(self, program: Program, library: Library, registers: Row) -> None:
        self.program = program
        self.library = library
        self.cycle = 0
        self.length = len(registers)
        ends = [0, *accumulate([*program.lines, program.count])]
        parts = [registers[start:end] for start, end in zip(ends, ends[1:])]
        self.lines = dict(zip(sources(program.count), parts))
        self.present = parts[-1]
        self.more = registers[ends[-1] :]

    def registers(self) -> Row:
        return [*chain(*self.lines.values()), *self.present, *self.more]

    def ask_registers(self, lent: int) -> None:
        needed = self.program.registers()
        ask(18, lent, needed, lent >= needed)

    def start(self, rests: Row, lent: int) -> None:
        n = self.program.count
        ask(17, len(rests), n + 1, len(rests) == n + 1)
        self.ask_registers(lent)
        for (source, line), rest in zip(self.lines.items(), rests):
            self.lines[source] = [rest] * len(line)
        self.present = rests[:n]
        self.cycle = 0

    def heard(self, source: int, delay: int, taken: Element) -> Element:
        if delay > 0:
            return self.lines[source][delay - 1]
        return taken if source == INPUT else self.present[source]

    def fire(self, cell: Cell, taken: Element) -> None:
        if cell.lag <= self.cycle:
            operands = [
                (source, self.heard(source, delay, taken))
                for source, delay in sorted(cell.taps.items())
            ]
            self.present[cell.node] = self.library.value(cell.operation, operands)

    def step(self, taken: Element, lent: int) -> Element:
        self.ask_registers(lent)
        for cell in self.program.cells:
            self.fire(cell, taken)
        put_out = self.heard(*self.program.output, taken)
        for source, line in self.lines.items():
            self.lines[source] = [self.heard(source, 0, taken), *line][: len(line)]
        self.cycle += 1
        return put_out


# ---------------------------------------------------------------- events


class Start(NamedTuple):
    rests: Row

    def text(self, library: Library) -> str:
        return f"start {library.row_text(self.rests)}".rstrip()


class Step(NamedTuple):
    inputs: Row

    def text(self, library: Library) -> str:
        return f"step {library.row_text(self.inputs)}"


class Lend(NamedTuple):
    count: int

    def text(self, _library: Library) -> str:
        return f"lend {self.count}"


Event = Union[Start, Step, Lend]


class Answer(NamedTuple):
    call: str  # load, start or step
    question: int  # 0 where it is accepted
    line: str


class Run(NamedTuple):
    """The steps that are accepted after an accepted start, up to the next."""

    rests: Row
    inputs: Row
    outputs: Row


# ---------------------------------------------------------------- cases


@dataclass
class Case:
    task: str
    words: Words
    library: Library
    events: list[Event] = field(default_factory=list)
    count: int = 0  # of registers
    moves: tuple[Move, ...] = ()
    bench: Optional[Bench] = None

    def __post_init__(self) -> None:
        self.answers: list[Answer] = []
        self.runs: list[Run] = []
        self.machine: Optional[Machine] = None
        self.answer()
        if self.bench is not None:
            self.check_channels(self.bench)

    def given(self) -> str:
        events = ";".join(event.text(self.library) for event in self.events)
        return given_line(
            self.task, self.words, self.moves, self.library, str(self.count), events
        )

    def answer(self) -> None:
        words = self.words if self.bench is None else self.bench.program()
        try:
            program = load(words)
        except LoadRefused as refused:
            self.answers.append(Answer("load", refused.question, refused.line))
            return
        self.answers.append(Answer("load", 0, f"loaded {program.registers()}"))
        filler: Row = [self.library.cells.filler] * self.count
        self.machine = Machine(program, self.library, filler)
        lent = self.count
        for event in self.events:
            if isinstance(event, Lend):
                lent = event.count
            elif isinstance(event, Start):
                self.start(self.machine, event.rests, lent)
            else:
                self.step(self.machine, event.inputs, lent)

    def start(self, machine: Machine, rests: Row, lent: int) -> None:
        try:
            machine.start(rests, lent)
            self.runs.append(Run(rests, [], []))
            self.answers.append(Answer("start", 0, "ok"))
        except Refused as refused:
            self.answers.append(Answer("start", refused.question, refused.line))

    def step(self, machine: Machine, inputs: Row, lent: int) -> None:
        for taken in inputs:
            try:
                put_out = machine.step(taken, lent)
                self.answers.append(Answer("step", 0, self.library.text(put_out)))
                for run in self.runs[-1:]:
                    run.inputs.append(taken)
                    run.outputs.append(put_out)
            except Refused as refused:
                self.answers.append(Answer("step", refused.question, refused.line))

    def check_channels(self, bench: Bench) -> None:
        """Each channel alone gives what the design gives."""
        node, _ = bench.design.output
        for run, r in product(self.runs, range(bench.factor)):
            values = Values(bench.design, self.library, run.rests, run.inputs[r :: bench.factor])
            late = run.outputs[r + bench.lags[node] :: bench.factor]
            assert late == [values.output(t) for t in range(len(late))], self.given()

    def printed(self) -> Iterator[str]:
        yield from (answer.line for answer in self.answers)
        if self.machine is not None:
            yield f"cycle {self.machine.cycle}"
            yield self.library.line("registers", self.machine.registers())


def emit(
    design: Design, moves: tuple[Move, ...], library: Library, events: list[Event], more: int = 1
) -> Case:
    """A case with so many more registers than are needed, or fewer."""
    bench = Bench(design)
    for move in moves:
        bench = bench.made(move)
    count = load(bench.program()).registers() + more
    return Case("emit", write(design), library, events, count, moves, bench)


def run_program(program: Program, library: Library, events: list[Event], more: int = 1) -> Case:
    return Case("load", write_program(program), library, events, program.registers() + more)


def loaded(case: load_cases.Case) -> Case:
    return Case("load", case.words, Library(COMPARE))


# ---------------------------------------------------------------- worked by hand


SETTLED = (Settle(),)


def printed_lines(case: Case) -> list[str]:
    return [*case.printed()]


def worked_case() -> Case:
    """Node 1 is three times the input, and node 0, the output, twice its last
    value and node 1.  Settled, it runs two channels, and is late by 1."""
    steps = Step([1, 5, 1, 0, 1, 0, 0])
    case = emit(WORKED, SETTLED, worked_library(WHOLE, 2, 3), [Start([0, 0, 0]), steps])
    assert printed_lines(case) == [
        "loaded 5",
        "ok",
        *("0", "3", "15", "9", "30", "21", "60"),
        "cycle 7",
        # Node 0 of the last two cycles, node 1 of the last, no input, both nodes.
        "registers 60 21 0 60 0 -1234567890",
    ]
    return case


def worked_refusal_case() -> Case:
    """Refused calls change nothing and use no cycle."""
    events: list[Event] = [
        Start([4, 5, 6]),
        Step([1]),
        *(Lend(4), Step([1]), Start([0] * 3), Lend(5)),
        *(Start([0] * 2), Start([0] * 4), Start([]), Step([1])),
        *(Lend(6), Step([1])),
    ]
    case = emit(WORKED, SETTLED, worked_library(WHOLE, 2, 3), events)
    # At cycle 1 node 0 hears its rest value 4 and node 1 of cycle 0.
    assert printed_lines(case) == [
        *("loaded 5", "ok", "4", "refused 18 machine 4 5", "refused 18 machine 4 5"),
        *("refused 17 machine 2 3", "refused 17 machine 4 3", "refused 17 machine 0 3"),
        *("11", "11", "cycle 3", "registers 11 11 3 11 3 -1234567890"),
    ]
    return case


def worked_cases() -> Iterator[Case]:
    yield worked_case()
    yield worked_refusal_case()
    inputs = Step([1, 5, 1, 0, 1, 0, 0, -1, 7])
    for moves in ((), SETTLED, (Slow(3),), (Lag((7, 7)),), (Settle(), Lag((-1, 0)), Slow(3))):
        for rests in ([0, 0, 0], [4, 5, 6]):
            events: list[Event] = [Start(rests), inputs, Start(rests[::-1]), inputs]
            yield emit(WORKED, moves, worked_library(WHOLE, 2, 3), events)
        yield emit(WORKED, moves, worked_library(WHOLE, 2, 3), [inputs, Start([1, 2, 3])])


# ---------------------------------------------------------------- lags and delays


def lag_cases() -> Iterator[Case]:
    """Each lag by itself, in runs that end before it, at it and after it; then
    a second start, whose cycles count anew."""
    library = Library(WHOLE, common=Weight(2, 0))
    for lag in (0, 1, 2, 3, 7, 31, 32, 40):
        alone = Design([Node(0, {INPUT: 0})], (0, 0))
        summed = Design([Node(0, {0: 1, INPUT: 0})], (0, 1))
        pair = Design([Node(0, {1: 1, INPUT: 0}), Node(0, {0: 0})], (1, 0))
        for design, steps in product((alone, summed, pair), {max(0, lag - 1), lag, lag + 1, lag + 4}):
            n = len(design.nodes)
            run: list[Event] = [Start(counting(50, n + 1)), Step(counting(1, steps))]
            again: list[Event] = [Start(counting(-9, n + 1)), Step(counting(7, 3))]
            yield emit(design, (Lag((lag,) * n),), library, run + again, 2)


def delay_cases() -> Iterator[Case]:
    """One delay, of the input, of a node to itself, of a node to another and
    of the output, in runs that end before it and after it."""
    library = Library(WHOLE, common=Weight(2, 0))
    for delay, factor in ((0, 3), (1, 1), (1, 3), (2, 2), (7, 4), (31, 1), (32, 1), (255, 1)):
        designs = [
            Design([Node(0, {INPUT: delay})], (0, 0)),
            Design([Node(0, {INPUT: 0})], (0, delay)),
            Design([Node(0, {INPUT: 1}), Node(0, {0: delay})], (1, 1)),
            Design([Node(0, {0: max(1, delay), INPUT: 0})], (0, 0)),
        ]
        for design in designs:
            steps = factor * delay + factor + 2
            events: list[Event] = [Start(counting(-3, len(design.nodes) + 1))]
            yield emit(design, (Slow(factor),), library, [*events, Step(counting(10, steps))])
            yield emit(design, (Slow(factor),), library, [*events, Step(counting(10, steps // 2))])


def greatest_cases() -> Iterator[Case]:
    """The greatest lag and the longest line, in a run of few cycles."""
    library = Library(WHOLE, common=Weight(3, 0))
    late = Design([Node(0, {INPUT: 0})], (0, 0))
    yield emit(late, (Lag((4095,)),), library, [Start([7, 8]), Step(counting(1, 4))])
    yield emit(late, (Lag((4095,)),), library, [Start([7, 8]), Step([1] * 4094 + [2, 3, 4])])
    held = Design([Node(0, {0: 63})], (0, 0))
    yield emit(held, (Slow(64),), library, [Start([7, 8]), Step([1])])
    put_out = Design([Node(0, {INPUT: 0})], (0, 63))
    yield emit(put_out, (Slow(64), ), library, [Start([7, 8]), Step([1] * 4032 + [2, 3, 4])])


def factor_cases() -> Iterator[Case]:
    """Every factor: so many channels, each with inputs of its own."""
    for factor in range(1, 65):
        events: list[Event] = [Start([5, 6, 7]), Step(counting(1, 2 * factor + 3))]
        yield emit(WORKED, (Slow(factor),), worked_library(WHOLE, 2, 3), events)
    for n in (*range(1, 9), 16, MOST_NODES):
        for order in (list(range(n)), list(range(n))[::-1]):
            design = chain_design(order, 0)
            run: list[Event] = [Start(counting(1, n + 1)), Step(counting(100, 2 * n + 3))]
            yield emit(design, SETTLED, Library(WHOLE), run)
            yield emit(design, (), Library(WHOLE), run)


def place_cases() -> Iterator[Case]:
    """Each source by itself feeds the last of n nodes, at once and late; then
    each node is the output."""
    for n in (1, 2, 5, 31, MOST_NODES):
        run: list[Event] = [Start(counting(50, n + 1)), Step([1, 2, 3])]
        for source, delay in product(sources(n), (0, 1)):
            design = bare_design(n, n - 1)
            design.nodes[-1].feeds[source] = max(delay, 1 if source == n - 1 else 0)
            yield emit(design, (), Library(COMPARE), run)
        for node, delay in product(range(n), (0, 2)):
            design = Design(bare_design(n).nodes, (node, delay))
            yield emit(design, (Lag((1,) * n),), Library(COMPARE), run)


# ---------------------------------------------------------------- lengths


def length_cases() -> Iterator[Case]:
    """Rest rows and registers right, one too few, one too many and far off,
    in all combinations; each before and after a start."""
    for n in (1, 2, 5, MOST_NODES):
        design = chain_design(list(range(n)), 1)
        needed = load(Bench(design).program()).registers()
        for rests, lent in product((0, 1, n, n + 1, n + 2, 40), (0, needed - 1, needed, needed + 1)):
            tried: list[Event] = [Lend(lent), Start([3] * rests), Step([4, 5]), Lend(needed + 1)]
            last: list[Event] = [Start([1] * (n + 1)), Step([2])]
            yield emit(design, (), Library(WHOLE), [*tried, Step([6]), *last])
            yield emit(design, (), Library(WHOLE), [*last, *tried, Step([6])])


def every_length_cases() -> Iterator[Case]:
    """Lengths that fit or not on every library."""
    for (cells, bubble), rests, more in product(KINDS, (2, 3, 4), (-1, 0, 2)):
        row: Row = [None if bubble else 1]
        events: list[Event] = [Start(row * rests), Step(row * 2)]
        yield emit(WORKED, SETTLED, Library(cells, bubble), events, more)


# ---------------------------------------------------------------- drawn


MOST_REGISTERS = 160


def fitting_moves(rng: Random, design: Design, most: int) -> tuple[Move, ...]:
    """A few moves that leave no more registers than that, if any of six do."""
    for _ in range(6):
        moves = some_moves(rng, design)
        bench = Bench(design)
        for move in moves:
            bench = bench.made(move)
        if load(bench.program()).registers() <= most:
            return moves
    return ()


def some_events(rng: Random, n: int, needed: int, draw, absent: float) -> list[Event]:
    """A few runs, with refused calls among them; at times steps come first."""
    events: list[Event] = []
    steps = rng.randint(0, 3) if rng.random() < 0.3 else 0
    if steps:
        events.append(Step(some_row(rng, draw, steps, absent)))
    for _ in range(rng.choice((1, 1, 2, 3))):
        pick = rng.random()
        if pick < 0.25:
            wrong = rng.choice((0, n, n + 2, rng.randint(0, 40)))
            events.append(Start(some_row(rng, draw, wrong, absent)))
        elif pick < 0.5:
            fewer = [Lend(rng.choice((0, needed - 1, rng.randrange(needed))))]
            refused = rng.choice((Start([draw(rng)] * (n + 1)), Step([draw(rng)])))
            events += [*fewer, refused, Lend(needed + rng.choice((0, 1)))]
        events.append(Start(some_row(rng, draw, n + 1, absent)))
        events.append(Step(some_row(rng, draw, rng.choice((1, 3, 8, rng.randint(1, 25))), absent)))
        if rng.random() < 0.2:
            events += [Lend(needed - 1), Step([draw(rng)]), Lend(needed), Step([draw(rng)])]
    return events


def drawn_events(rng: Random, n: int, needed: int, library: Library) -> list[Event]:
    draw = rng.choice(DRAWS[library.cells.name])
    absent = rng.choice((0.02, 0.1, 0.4)) if library.bubble else 0
    return some_events(rng, n, needed, draw, absent)


def some_case(rng: Random, design: Design, cells, bubble: bool, most: int) -> Case:
    draw = rng.choice(DRAWS[cells.name])
    library = some_library(rng, design, cells, bubble, draw)
    moves = fitting_moves(rng, design, most)
    bench = Bench(design)
    for move in moves:
        bench = bench.made(move)
    needed = load(bench.program()).registers()
    events = drawn_events(rng, len(design.nodes), needed, library)
    return emit(design, moves, library, events, rng.choice((1, 1, 2)))


def drawn_cases(rng: Random) -> Iterator[Case]:
    for design in drawn_designs(rng):
        for cells, bubble in KINDS:
            yield some_case(rng, design, cells, bubble, MOST_REGISTERS)


def tiny_cases(rng: Random) -> Iterator[Case]:
    """Every design of one or two nodes with delays 0 and 1 between them, one
    node or both fed by the input, as it is opened, settled and lagged."""
    for design, fed, delay in product(tiny_designs(), (1, 2), (0, 1)):
        if on_zero_cycles(design):
            continue
        n = len(design.nodes)
        weight = Weight(rng.choice((2, 3, -1)), rng.choice((0, n - 1, INPUT)))
        library = Library(WHOLE, common=weight)
        moves = rng.choice(((), SETTLED, (Slow(2),), (Lag((2,) * n), Settle()), (Settle(), Slow(2))))
        steps = Step(counting(1, 9))
        events: list[Event] = [Start([10, 100, 1000][: n + 1]), steps, Start([5] * (n + 1)), steps]
        yield emit(with_input(design, fed, delay), moves, library, events)


# ---------------------------------------------------------------- other programs


def program_library(rng: Random, program: Program, cells, bubble: bool) -> Library:
    """Weights for the operations of a program."""
    nodes = [Node(cell.operation) for cell in program.cells]
    draw = rng.choice(DRAWS[cells.name])
    return some_library(rng, Design(nodes, (0, 0)), cells, bubble, draw)


def long_number(rng: Random) -> int:
    return rng.choice((0, 1, 2, rng.randint(0, 40)))


def program_cases(rng: Random) -> Iterator[Case]:
    """Programs that no bench need emit: any lags, and cells in any order that
    loads."""
    for _ in range(60):
        n = rng.choice((1, 2, 3, 4, 6, 9))
        numbers = rng.choice((small_number, long_number))
        program = random_program(rng, n, rng.uniform(0.1, 1), numbers)
        for cells, bubble in KINDS:
            library = program_library(rng, program, cells, bubble)
            events = drawn_events(rng, n, program.registers(), library)
            yield run_program(program, library, events)
    for n in (17, 31, MOST_NODES):
        program = random_program(rng, n, rng.choice((0.2, 1.1)))
        library = program_library(rng, program, WHOLE, False)
        yield run_program(program, library, drawn_events(rng, n, program.registers(), library))


def late_chain_cases() -> Iterator[Case]:
    """A chain whose cells start one after the other, in either direction, each
    holding its rest value until then; what stands later reads what earlier
    cells of the same cycle give."""
    n = 5
    for turned, delay in product((False, True), (0, 1, 2)):
        order = list(range(n))[::-1] if turned else list(range(n))
        feeds = zip(order, [INPUT, *order])
        cells = [Cell(node, 0, 2 * place, {source: delay}) for place, (node, source) in enumerate(feeds)]
        program = Program(n, 1, [], cells, (order[-1], delay))
        program.lines = greatest_delays(program)
        events: list[Event] = [Start(counting(10, n + 1)), Step(counting(100, 14))]
        yield run_program(program, Library(WHOLE, common=NO_WEIGHT), events, 2)


# ---------------------------------------------------------------- all of them


def all_cases() -> Iterator[Case]:
    # Each group that draws has its own seed, so that one can grow alone.
    yield from worked_cases()
    yield from lag_cases()
    yield from delay_cases()
    yield from greatest_cases()
    yield from factor_cases()
    yield from place_cases()
    yield from length_cases()
    yield from every_length_cases()
    yield from tiny_cases(Random(1))
    yield from drawn_cases(Random(2))
    yield from program_cases(Random(3))
    yield from late_chain_cases()
    yield from map(loaded, load_cases.stored_cases())


AnyCase = Union[Case, simulation_cases.Case]


def stored_cases() -> dict[str, AnyCase]:
    """The cases by their lines, the same one kept once."""
    cases = chain(simulation_cases.all_cases(), all_cases())
    return {case.given(): case for case in cases}


def case_lines(cases: dict[str, AnyCase]) -> Iterator[str]:
    for number, case in enumerate(cases.values()):
        yield f"case {number}\n"
        yield from (f"{line}\n" for line in case.printed())


def counts(cases: list[Case]) -> Counter[str]:
    """How often each call is given each answer."""
    answers: Counter[str] = Counter()
    for answer in chain.from_iterable(case.answers for case in cases):
        given = f"refused by {answer.question}" if answer.question else "accepted"
        answers[f"{answer.call}: {given}"] += 1
    return answers


def main(directory: str) -> None:
    cases = stored_cases()
    target = Path(directory)
    target.mkdir(parents=True, exist_ok=True)
    save(target / "stdin", iter(cases))
    save(target / "stdout", case_lines(cases))
    machine = [case for case in cases.values() if isinstance(case, Case)]
    simulator = [case for case in cases.values() if not isinstance(case, Case)]
    print(f"{len(simulator)} cases of the simulator, {len(machine)} of the machine")
    for counted in (simulation_cases.counts(simulator), counts(machine)):
        print(*(f"{answer}: {times}" for answer, times in sorted(counted.items())), sep="\n")


if __name__ == "__main__":
    if len(sys.argv) != 2:
        sys.exit("usage: machine_cases.py DIR")
    main(sys.argv[1])
