#!/usr/bin/env python3
"""Cases for loading an array program from 32-bit words: good programs, and ones
that are damaged.  machine_cases.py writes them out.

The loader below is made from the following rules alone, so that another one
can be held against it.

A program has n nodes, 1 to 32, numbered from 0, and a factor K, 1 to 64.  A
source is a node or the input, which is source 32.  Bits 31-28 of a word are its
kind:

     8 head    bits 5-0 n,      bits 12-6 K
     9 line    bits 5-0 source, bits 17-6 length
    10 cell    bits 4-0 node,   bits 12-5 operation, bits 24-13 lag
    11 tap     bits 5-0 source, bits 17-6 delay
    12 output  bits 5-0 node,   bits 17-6 delay
    13 end     bits 10-0 number of words, this one counted

All other bits are zero.  The head comes first, then a line for each node in
order and for the input, then the cells, each node's once and in any order, each
followed by its taps ascending by source, then the output and the end.

At each word in turn the loader asks:

    1 is there a word here?
    2 may its kind stand here?  (a line or a cell while one is missing)
    3 are the unnamed bits zero and the fields in range?
    4 is a line's source the next one, a cell new, a tap's source above the
      cell's last one?
    5 is the end's count right, and is the end the last word?

These are of the layer words.  Then, of the layer machine, at each word in turn:

    15 does a tap of delay 0 from a node read an earlier cell?
    16 is a line as long as the greatest delay at which a tap or the output
       reads its source, or 0 if none does?

15 is asked of every tap before 16 of any line.  The first no, at the lowest
index, is the refusal.

A loaded program needs as many registers as its lines are long, and one more for
each node.
"""

from __future__ import annotations

from collections.abc import Iterator
from dataclasses import dataclass, field
from itertools import chain, combinations, count, product
from random import Random
from typing import NamedTuple, Optional

from bench_cases import Bench, Lag, Settle, Slow
from bench_cases import any_delay, chain_design, dense_design, fitting_row, open_design, small_delay
from bench_cases import small_design
from word_cases import DAMAGES, INPUT, KINDS, MOST_NODES, WORKED, Words
from word_cases import bare_design, full_design, inserted, places_of, replaced, sources, with_kind

HEAD, LINE, CELL, TAP, OUTPUT, END = 8, 9, 10, 11, 12, 13
MOST_FACTOR = 64
MOST_NUMBER = 4095  # of a lag, a delay and a line's length


@dataclass
class Cell:
    node: int
    operation: int
    lag: int
    taps: dict[int, int] = field(default_factory=dict)  # delay by source


@dataclass
class Program:
    count: int
    factor: int
    lines: list[int] = field(default_factory=list)
    cells: list[Cell] = field(default_factory=list)
    output: tuple[int, int] = (0, 0)  # node and delay

    def registers(self) -> int:
        return sum(self.lines) + self.count


# ---------------------------------------------------------------- writer


def head_word(n: int, factor: int) -> int:
    return HEAD << 28 | factor << 6 | n


def line_word(source: int, length: int) -> int:
    return LINE << 28 | length << 6 | source


def cell_word(node: int, operation: int = 0, lag: int = 0) -> int:
    return CELL << 28 | lag << 13 | operation << 5 | node


def tap_word(source: int, delay: int) -> int:
    return TAP << 28 | delay << 6 | source


def output_word(node: int, delay: int) -> int:
    return OUTPUT << 28 | delay << 6 | node


def end_word(total: int) -> int:
    return END << 28 | total


def cell_words(cell: Cell) -> Iterator[int]:
    yield cell_word(cell.node, cell.operation, cell.lag)
    for source, delay in sorted(cell.taps.items()):
        yield tap_word(source, delay)


def greatest_delays(program: Program) -> list[int]:
    """By source, the greatest delay at which it is read."""
    reads = [tap for cell in program.cells for tap in cell.taps.items()] + [program.output]
    return [
        max((delay for source, delay in reads if source == line), default=0)
        for line in sources(program.count)
    ]


def write_program(program: Program) -> Words:
    words = [head_word(program.count, program.factor)]
    words += [line_word(*line) for line in zip(sources(program.count), program.lines)]
    words += chain.from_iterable(map(cell_words, program.cells))
    words.append(output_word(*program.output))
    return [*words, end_word(len(words) + 1)]


# ---------------------------------------------------------------- loader


class Refused(Exception):
    def __init__(self, question: int, index: int) -> None:
        super().__init__(question, index)
        self.question = question
        self.index = index

    @property
    def line(self) -> str:
        layer = "words" if self.question <= 5 else "machine"
        return f"refused {self.question} {layer} {self.index} 0"


def ask(question: int, index: int, answer: bool) -> None:
    if not answer:
        raise Refused(question, index)


@dataclass
class SoFar:
    """What the accepted words have said."""

    last: int = 0  # kind of the word before; 0 when there is none
    program: Program = field(default_factory=lambda: Program(0, 0))


def may_stand(kind: int, so_far: SoFar) -> bool:
    program = so_far.program
    if so_far.last == 0:
        return kind == HEAD
    if kind == LINE:
        return len(program.lines) < program.count + 1
    if kind == CELL:
        return len(program.lines) == program.count + 1 and len(program.cells) < program.count
    if kind == TAP:
        return so_far.last in (CELL, TAP)
    if kind == OUTPUT:
        return len(program.cells) == program.count and so_far.last in (CELL, TAP)
    return kind == END and so_far.last == OUTPUT


# How many bits below the kind are named, all of them from bit 0 on.
NAMED = {HEAD: 13, LINE: 18, CELL: 25, TAP: 18, OUTPUT: 18, END: 11}


def in_range(word: int, program: Program) -> bool:
    kind = word >> 28
    if (word & 0x0FFFFFFF) >> NAMED[kind]:
        return False
    if kind == HEAD:
        return 1 <= (word & 0x3F) <= MOST_NODES and 1 <= word >> 6 & 0x7F <= MOST_FACTOR
    if kind in (LINE, TAP):
        return (word & 0x3F) in sources(program.count)
    if kind == CELL:
        return (word & 0x1F) < program.count
    if kind == OUTPUT:
        return (word & 0x3F) < program.count
    return True


def in_order(word: int, program: Program) -> bool:
    kind = word >> 28
    if kind == LINE:
        return (word & 0x3F) == sources(program.count)[len(program.lines)]
    if kind == CELL:
        return all(cell.node != (word & 0x1F) for cell in program.cells)
    if kind == TAP:
        return all(source < (word & 0x3F) for source in program.cells[-1].taps)
    return True


def ends_well(word: int, index: int, total: int) -> bool:
    return word >> 28 != END or (word & 0x7FF) == index + 1 == total


def accept(word: int, so_far: SoFar) -> None:
    program = so_far.program
    so_far.last = word >> 28
    place, number = word & 0x3F, word >> 6 & 0xFFF
    if so_far.last == HEAD:
        so_far.program = Program(place, word >> 6 & 0x7F)
    elif so_far.last == LINE:
        program.lines.append(number)
    elif so_far.last == CELL:
        program.cells.append(Cell(word & 0x1F, word >> 5 & 0xFF, word >> 13 & 0xFFF))
    elif so_far.last == TAP:
        program.cells[-1].taps[place] = number
    elif so_far.last == OUTPUT:
        program.output = (place, number)


def read_program(words: Words) -> Program:
    so_far = SoFar()
    for index in count():
        ask(1, index, index < len(words))
        word = words[index]
        ask(2, index, may_stand(word >> 28, so_far))
        ask(3, index, in_range(word, so_far.program))
        ask(4, index, in_order(word, so_far.program))
        ask(5, index, ends_well(word, index, len(words)))
        accept(word, so_far)
        if so_far.last == END:
            break
    return so_far.program


def check_taps(words: Words) -> None:
    cells: list[int] = []
    for index, word in enumerate(words):
        if word >> 28 == CELL:
            cells.append(word & 0x1F)
        if word >> 28 == TAP and word >> 6 & 0xFFF == 0:
            source = word & 0x3F
            ask(15, index, source == INPUT or source in cells[:-1])


def check_lines(words: Words, program: Program) -> None:
    for place, needed in enumerate(greatest_delays(program)):
        ask(16, 1 + place, words[1 + place] >> 6 & 0xFFF == needed)


def load(words: Words) -> Program:
    program = read_program(words)
    check_taps(words)
    check_lines(words, program)
    assert write_program(program) == words
    return program


# ---------------------------------------------------------------- answers


Answer = tuple[int, int]  # question and index of a refusal
LOADED: Answer = (0, 0)


class Case(NamedTuple):
    words: Words
    # The answer, where the way the case was made settles it.
    known: Optional[Answer] = None


def answer_to(words: Words) -> Answer:
    try:
        load(words)
    except Refused as refused:
        return refused.question, refused.index
    return LOADED


# ---------------------------------------------------------------- programs


# The worked design, settled.
WORKED_PROGRAM = [
    0x80000082, 0x90000080, 0x90000041, 0x90000020, 0xA0002000, 0xB0000080,
    0xB0000041, 0xA0000021, 0xB0000020, 0xC0000000, 0xD000000B,
]  # fmt: skip


def recounted(words: Words) -> Words:
    """The last word made an end with the right count."""
    return [*words[:-1], end_word(len(words))]


def number(rng: Random) -> int:
    return rng.choice((0, 1, MOST_NUMBER, rng.randint(0, 9), rng.randrange(MOST_NUMBER + 1)))


def small_number(rng: Random) -> int:
    return rng.choice((0, 0, 1, 1, 2, 3, rng.randint(0, 9)))


def random_program(rng: Random, n: int, density: float, numbers=small_number) -> Program:
    """Cells in any order; with delay 0 each reads earlier ones and the input."""
    program = Program(n, rng.choice((1, 2, n, rng.randint(1, MOST_FACTOR), MOST_FACTOR)))
    for node in rng.sample(range(n), n):
        earlier = [cell.node for cell in program.cells]
        cell = Cell(node, rng.choice((0, 1, 255, rng.randrange(256))), numbers(rng))
        for source in sources(n):
            if rng.random() < density:
                least = 0 if source == INPUT or source in earlier else 1
                cell.taps[source] = max(least, numbers(rng))
        program.cells.append(cell)
    program.output = (rng.randrange(n), numbers(rng))
    program.lines = greatest_delays(program)
    return program


def few_nodes(rng: Random) -> int:
    return rng.choice((1, 2, 2, 3, 3, 4, 5, 6))


def small_program(rng: Random) -> Program:
    n = few_nodes(rng)
    return random_program(rng, n, rng.uniform(0, min(1, 3 / n)))


def full_program(rng: Random, n: int) -> Program:
    return random_program(rng, n, 1.1)


def emitted(rng: Random, n: int) -> Words:
    """What a bench emits after a few moves."""
    bench = Bench(open_design(rng, n, 2, rng.choice((small_delay, any_delay))))
    bench = bench.made(Lag(tuple(fitting_row(rng, bench, rng.choice((1, 5, 300))))))
    if rng.random() < 0.5 and n <= 8:
        bench = bench.made(Settle())
    return bench.program()


# ---------------------------------------------------------------- good programs


def good_cases(rng: Random) -> Iterator[Case]:
    assert Bench(WORKED).made(Settle()).program() == WORKED_PROGRAM
    assert answer_to(WORKED_PROGRAM) == LOADED
    yield Case(WORKED_PROGRAM, LOADED)
    for n in range(1, MOST_NODES + 1):
        yield Case(emitted(rng, n), LOADED)
        yield Case(Bench(bare_design(n, n - 1)).program(), LOADED)
        yield Case(Bench(chain_design(list(range(n))[::-1], 0)).program(), LOADED)
        yield Case(write_program(random_program(rng, n, 2 / (n + 1), number)), LOADED)
    for n in (1, 2, 5, 9, 31, MOST_NODES):
        yield Case(Bench(dense_design(rng, n)).program(), LOADED)
        yield Case(Bench(full_design(n, 1)).program(), LOADED)
        yield Case(write_program(full_program(rng, n)), LOADED)
    for _ in range(80):
        yield Case(write_program(small_program(rng)), LOADED)


def one_field_cases() -> Iterator[Case]:
    """Each field of an accepted program takes each of its bits, so that one
    that is read from the wrong bits shows."""
    bits = [0, MOST_NUMBER, *(1 << bit for bit in range(12))]
    for factor in (1, 2, 4, 8, 16, 32, 63, 64):
        yield Case(write_program(Program(1, factor, [0, 0], [Cell(0, 0, 0)])), LOADED)
    for value in bits:
        late = Cell(0, 0, value)
        yield Case(write_program(Program(1, 1, [0, 0], [late])), LOADED)
        yield Case(write_program(Program(1, 1, [value, 0], [late], (0, value))), LOADED)
        heard = Cell(0, value & 0xFF, 0, {INPUT: value})
        yield Case(write_program(Program(1, 1, [0, value], [heard])), LOADED)
        own = Cell(0, 0, 0, {0: max(1, value)})
        yield Case(write_program(Program(1, 1, [max(1, value), 0], [own])), LOADED)


# ---------------------------------------------------------------- lengths


def truncated_cases(rng: Random) -> Iterator[Case]:
    yield Case([], (1, 0))
    longest = write_program(full_program(rng, MOST_NODES))
    for words in (WORKED_PROGRAM, emitted(rng, 4), write_program(full_program(rng, 5))):
        yield from (Case(words[:length], (1, length)) for length in range(len(words)))
    yield from (Case(longest[:length], (1, length)) for length in (33, 34, 35, 1122, 1123))


def count_cases(words: Words) -> Iterator[Case]:
    """Counts off by one, at the ends of the range, and wrong in one bit."""
    right, at = len(words), len(words) - 1
    flips = (right ^ 1 << bit for bit in range(11))
    for wrong in (right - 1, right + 1, 0, 2047, *flips):
        yield Case(replaced(words, at, end_word(wrong)), (5, at))


def after_end_cases(words: Words) -> Iterator[Case]:
    at = len(words) - 1
    tails = [[kind << 28] for kind in KINDS]
    tails += [[0, 0, 0], words, [words[-1]], [end_word(len(words) + 1)]]
    yield from (Case(words + tail, (5, at)) for tail in tails)
    # A count that takes the tail in does not help.
    counted = replaced(words, at, end_word(len(words) + 1))
    yield Case([*counted, 0], (5, at))
    yield Case([*counted, end_word(len(words) + 1)], (5, at))


def end_cases(rng: Random) -> Iterator[Case]:
    for words in (WORKED_PROGRAM, write_program(full_program(rng, 3))):
        yield from count_cases(words)
        yield from after_end_cases(words)
    longest = write_program(full_program(rng, MOST_NODES))
    assert len(longest) == 1 + 33 + 32 * 34 + 2
    for wrong in (0, 100, 1123, 1125, 2047):
        yield Case(replaced(longest, 1123, end_word(wrong)), (5, 1123))


# ---------------------------------------------------------------- kinds


# Kinds that may stand at each index of the worked program.
WORKED_KINDS = [
    {HEAD}, {LINE}, {LINE}, {LINE}, {CELL}, {CELL, TAP},
    {CELL, TAP}, {CELL, TAP}, {TAP, OUTPUT}, {TAP, OUTPUT}, {END},
]  # fmt: skip


def kind_cases() -> Iterator[Case]:
    """Every kind at every index, in place of the word there and before it."""
    for (at, word), kind in product(enumerate(WORKED_PROGRAM), KINDS):
        known = None if kind in WORKED_KINDS[at] else (2, at)
        yield Case(replaced(WORKED_PROGRAM, at, with_kind(word, kind)), known)
        yield Case(replaced(WORKED_PROGRAM, at, kind << 28), known)
        yield Case(recounted(inserted(WORKED_PROGRAM, at, kind << 28)), known)


def arrangement_cases() -> Iterator[Case]:
    """Parts that are missing, doubled or out of order."""
    head, output = head_word(2, 1), output_word(0, 0)
    zero, one, last = (line_word(source, 0) for source in (0, 1, INPUT))
    first, second, tap = cell_word(1), cell_word(0), tap_word(INPUT, 0)
    lines = [zero, one, last]
    arrangements = [
        ([head], 1),
        ([head, *lines], 4),
        ([head, *lines, output], 4),
        ([head, *lines, tap], 4),
        ([head, zero, one, first, second, output], 3),
        ([head, first, second, *lines, output], 1),
        ([head, zero, first, one, last, second, output], 2),
        ([head, tap, *lines, first, second, output], 1),
        ([head, *lines, last, first, second, output], 4),
        ([head, *lines, first, last, second, output], 5),
        ([head, *lines, first, output], 5),
        ([head, *lines, first, tap, output], 6),
        ([head, *lines, first, output, second], 5),
        ([head, *lines, first, second, first, output], 6),
        ([head, *lines, first, second, tap, second, output], 7),
        ([head, *lines, first, second], 6),
        ([head, *lines, first, second, output, output], 7),
        ([head, *lines, first, second, output, tap], 7),
        ([head, *lines, first, second, output, first], 7),
        ([head, *lines, first, second, output, zero], 7),
        ([head, *lines, first, head, second, output], 5),
        ([head, head, *lines, first, second, output], 1),
        ([*lines, first, second, output], 0),
        ([head_word(3, 1), *lines, first, second, output], 3),
        ([], 0),
    ]
    for words, place in arrangements[:-2]:
        yield Case([*words, end_word(len(words) + 1)], (2, place))
    # With three nodes, the third line is the input's, and is out of order.
    words, place = arrangements[-2]
    yield Case([*words, end_word(len(words) + 1)], (4, place))
    yield Case([end_word(1)], (2, 0))
    whole = [head, *lines, first, second, tap, output]
    yield Case([*whole, end_word(len(whole) + 1)], LOADED)


# ---------------------------------------------------------------- fields


def unnamed_bit_cases(words: Words) -> Iterator[Case]:
    for at, word in enumerate(words):
        for bit in range(NAMED[word >> 28], 28):
            yield Case(replaced(words, at, word | 1 << bit), (3, at))


def head_cases() -> Iterator[Case]:
    """Every n and K out of range, then n that the lines do not fit."""
    for n in (0, *range(33, 64)):
        yield Case(replaced(WORKED_PROGRAM, 0, head_word(n, 2)), (3, 0))
        yield Case(replaced(WORKED_PROGRAM, 0, head_word(n, 0)), (3, 0))
    for factor in range(128):
        known = LOADED if 1 <= factor <= MOST_FACTOR else (3, 0)
        yield Case(replaced(WORKED_PROGRAM, 0, head_word(2, factor)), known)
    for n in (1, *range(3, 33)):
        known = (4, 2) if n == 1 else (4, 3)
        if n == 1:
            # The line of node 1 is out of range when there is node 0 alone.
            known = (3, 2)
        yield Case(replaced(WORKED_PROGRAM, 0, head_word(n, 2)), known)


def line_source_cases() -> Iterator[Case]:
    """Every source in place of the right one."""
    for n in (2, MOST_NODES):
        words = Bench(chain_design(list(range(n)), 1)).program()
        for at, source in product((1, n, n + 1), range(64)):
            changed = replaced(words, at, words[at] & ~0x3F | source)
            known = (4, at) if source in sources(n) else (3, at)
            yield Case(changed, LOADED if changed == words else known)


def cell_node_cases() -> Iterator[Case]:
    """Every node in place of the right one: a second time, or out of range."""
    for n in (1, 3, MOST_NODES):
        words = Bench(bare_design(n)).program()
        for place, node in product(sorted({0, n // 2, n - 1}), range(32)):
            # Of two cells of one node the second is refused.
            at = places_of(words, CELL)[place]
            known = (4, max(at, at + node - place)) if node < n else (3, at)
            changed = replaced(words, at, cell_word(node))
            yield Case(changed, LOADED if node == place else known)


def tap_source_cases() -> Iterator[Case]:
    """Every source in place of that of a cell's second tap."""
    at = 6
    assert WORKED_PROGRAM[at] == tap_word(1, 1)
    for source in range(64):
        if source in (0, 1, INPUT):
            # The line of node 1 is then too long, or that of the input short.
            known = {0: (4, at), 1: LOADED, INPUT: (16, 2)}[source]
        else:
            known = (3, at)
        yield Case(replaced(WORKED_PROGRAM, at, tap_word(source, 1)), known)


def tap_order_cases(rng: Random) -> Iterator[Case]:
    """Each tap's source taken from each tap of the same cell before it."""
    words = write_program(full_program(rng, 4))
    cell = places_of(words, CELL)[-1]
    for early, late in combinations(range(cell + 1, cell + 6), 2):
        yield Case(replaced(words, late, words[early]), (4, late))
        exchanged = replaced(replaced(words, late, words[early]), early, words[late])
        yield Case(exchanged, (4, early + 1))


def output_node_cases() -> Iterator[Case]:
    for n in (1, 2, 31, MOST_NODES):
        words = Bench(bare_design(n)).program()
        at = len(words) - 2
        for node in range(64):
            known = LOADED if node < n else (3, at)
            yield Case(replaced(words, at, output_word(node, 0)), known)


# ---------------------------------------------------------------- taps of delay 0


def late_tap_cases(rng: Random) -> Iterator[Case]:
    """Each tap of a full program given delay 0 by itself, as cells stand in
    different orders.  Then only the tap and its line may be refused."""
    for n in (1, 2, 3, 5):
        program = full_program(rng, n)
        for cell, source in product(program.cells, sources(n)):
            delay, cell.taps[source] = cell.taps[source], 0
            for lines in (greatest_delays(program), program.lines):
                yield Case(write_program(Program(n, 1, lines, program.cells, program.output)))
            cell.taps[source] = delay


def zero_pair_cases() -> Iterator[Case]:
    """Two nodes that read each other or themselves at delay 0, in either
    order of the cells."""
    for order, taps in product(((0, 1), (1, 0)), product((None, 0, 1), repeat=4)):
        cells = [Cell(node, 0, 0) for node in order]
        for place, (cell, source) in enumerate(product(sorted(cells, key=lambda c: c.node), (0, 1))):
            delay = taps[place]
            if delay is not None:
                cell.taps[source] = delay
        program = Program(2, 1, [], cells)
        program.lines = greatest_delays(program)
        early, late = cells
        allowed = 0 not in early.taps.values() and late.taps.get(late.node) != 0
        yield Case(write_program(program), LOADED if allowed else None)


def late_ring_cases() -> Iterator[Case]:
    """A chain along delays of 0, its cells in order but for one that comes
    too early or too late."""
    for n in (2, 3, 8, MOST_NODES):
        for one in range(n - 1):
            order = list(range(n))
            order[one], order[one + 1] = order[one + 1], order[one]
            cells = [Cell(node, 0, 0, {node - 1 if node else INPUT: 0}) for node in order]
            program = Program(n, 1, [0] * (n + 1), cells, (n - 1, 0))
            # Cells with their taps take two words each, and come after the lines.
            yield Case(write_program(program), (15, 1 + n + 1 + 2 * one + 1))


# ---------------------------------------------------------------- lines


def line_length_cases(rng: Random) -> Iterator[Case]:
    """Each line one too short, one too long, and far off."""
    for program in (small_program(rng), random_program(rng, 6, 0.3), full_program(rng, 4)):
        words = write_program(program)
        for place, right in enumerate(program.lines):
            at = 1 + place
            for length in {right - 1, right + 1, 0, MOST_NUMBER, right ^ 1 << rng.randrange(12)}:
                if 0 <= length <= MOST_NUMBER and length != right:
                    yield Case(replaced(words, at, words[at] ^ (right ^ length) << 6), (16, at))


def reader_cases(rng: Random) -> Iterator[Case]:
    """One reader's delay moved by one: the line is right for some, wrong for
    others."""
    for _ in range(25):
        words = write_program(small_program(rng))
        for at in [*places_of(words, TAP), *places_of(words, OUTPUT)]:
            delay = words[at] >> 6 & 0xFFF
            for other in (delay - 1, delay + 1):
                if other >= 0:
                    yield Case(replaced(words, at, words[at] ^ (delay ^ other) << 6))


def two_wrong_line_cases() -> Iterator[Case]:
    """The lowest wrong line is shown, and a late tap comes before any."""
    n = 4
    words = Bench(chain_design(list(range(n)), 2)).program()
    for one, two in combinations(range(1, n + 2), 2):
        wrong = replaced(replaced(words, one, words[one] ^ 64), two, words[two] ^ 128)
        yield Case(wrong, (16, one))
        for at in places_of(words, TAP)[1:]:
            # Node 0 hears the input, which has no cell; the others hear it late.
            late = replaced(wrong, at, tap_word(n - 1, 0))
            yield Case(late, (15, at))


def late_fault_cases(rng: Random) -> Iterator[Case]:
    """Faults at the end of a longest program."""
    words = write_program(full_program(rng, MOST_NODES))
    last = 1121
    assert words[last] >> 28 == TAP and words[last] & 0x3F == INPUT
    yield Case(replaced(words, last, tap_word(31, 0)), (4, last))
    yield Case(replaced(words, last, tap_word(33, 0)), (3, last))
    yield Case(replaced(words, last, output_word(0, 0)), (2, last + 1))
    yield Case(replaced(words, last + 1, output_word(32, 0)), (3, last + 1))
    yield Case(replaced(words, last + 1, tap_word(32, 0)), (4, last + 1))
    node = places_of(words, CELL)[-1]
    own = node + 1 + (words[node] & 0x1F)
    yield Case(replaced(words, own, words[own] & ~(0xFFF << 6)), (15, own))
    yield Case(replaced(words, 33, words[33] ^ 1 << 17), (16, 33))


# ---------------------------------------------------------------- several faults


class Fault(NamedTuple):
    """One word put in the worked program, and the question that refuses it."""

    place: int
    word: int
    question: int


UNNAMED = 1 << 27
# Many of these fail a later question too: the lowest number is the answer.
# They stand in ascending order of place.
FAULTS = [
    Fault(0, line_word(0, 0), 2),
    Fault(0, head_word(0, 2) | UNNAMED, 3),
    Fault(0, head_word(2, 65), 3),
    Fault(1, cell_word(0), 2),
    Fault(1, line_word(1, 2) | UNNAMED, 3),
    Fault(1, line_word(3, 2), 3),
    Fault(1, line_word(INPUT, 2), 4),
    Fault(2, output_word(63, 0) | UNNAMED, 2),
    Fault(2, line_word(0, 1), 4),
    Fault(3, tap_word(0, 0), 2),
    Fault(3, line_word(1, 0), 4),
    Fault(4, line_word(INPUT, 0), 2),
    Fault(4, cell_word(2), 3),
    Fault(5, output_word(0, 0), 2),
    Fault(5, tap_word(2, 0), 3),
    Fault(6, end_word(11), 2),
    Fault(6, tap_word(0, 0) | UNNAMED, 3),
    Fault(6, tap_word(0, 0), 4),
    Fault(7, head_word(2, 2), 2),
    Fault(7, cell_word(31), 3),
    Fault(7, cell_word(0), 4),
    Fault(8, cell_word(1), 2),
    Fault(8, tap_word(33, 0), 3),
    Fault(9, cell_word(1), 2),
    Fault(9, output_word(2, 0), 3),
    Fault(10, output_word(2, 0), 2),
    Fault(10, end_word(0) | UNNAMED, 3),
    Fault(10, end_word(10), 5),
]
# What 15 and 16 refuse: late taps, then lines whose index is lower.
LATE_FAULTS = [
    Fault(5, tap_word(0, 0), 15),
    Fault(6, tap_word(1, 0), 15),
    Fault(8, tap_word(1, 0), 15),
    Fault(1, line_word(0, 1), 16),
    Fault(2, line_word(1, 2), 16),
    Fault(3, line_word(INPUT, 1), 16),
]


def with_fault(words: Words, fault: Fault) -> Words:
    return replaced(words, fault.place, fault.word)


def two_fault_cases() -> Iterator[Case]:
    """Of two faults, the one of the lower place is found; and those of 15 and
    16 after all others."""
    for one in FAULTS:
        yield Case(with_fault(WORKED_PROGRAM, one), (one.question, one.place))
    for one, two in combinations(FAULTS, 2):
        if one.place < two.place:
            words = with_fault(with_fault(WORKED_PROGRAM, one), two)
            yield Case(words, (one.question, one.place))
    for one, two in combinations(LATE_FAULTS, 2):
        words = with_fault(with_fault(WORKED_PROGRAM, one), two)
        yield Case(words, (one.question, one.place))
    for late, other in product(LATE_FAULTS, FAULTS):
        if late.place != other.place:
            words = with_fault(with_fault(WORKED_PROGRAM, late), other)
            yield Case(words, None)


# ---------------------------------------------------------------- random damage


def flip_field_bit(rng: Random, words: Words) -> Words:
    at = rng.randrange(len(words))
    return replaced(words, at, words[at] ^ 1 << rng.randrange(25))


def random_word(rng: Random) -> int:
    """A word of some kind with small fields, so that it is often taken."""
    kind = rng.choice((LINE, CELL, CELL, TAP, TAP, TAP, OUTPUT, END, rng.randrange(16)))
    small = rng.choice((0, 1, 2, 3, INPUT, rng.randrange(64)))
    return kind << 28 | small_number(rng) << 6 | small


def put_word(rng: Random, words: Words) -> Words:
    return replaced(words, rng.randrange(len(words)), random_word(rng))


def damaged(rng: Random, words: Words) -> Words:
    """One damage, at times followed by more."""
    for _ in range(rng.choice((1, 1, 1, 1, 2, 3))):
        words = rng.choice([*DAMAGES, flip_field_bit, put_word])(rng, words)
    return recounted(words) if rng.random() < 0.5 else words


def damaged_cases(rng: Random) -> Iterator[Case]:
    for damage in (*DAMAGES, flip_field_bit, put_word):
        for _ in range(25):
            yield Case(damage(rng, write_program(small_program(rng))))
    for _ in range(350):
        yield Case(damaged(rng, write_program(small_program(rng))))
    for _ in range(100):
        yield Case(damaged(rng, Bench(small_design(rng)).made(Slow(2)).program()))
    for _ in range(8):
        yield Case(damaged(rng, write_program(full_program(rng, MOST_NODES))))


def random_word_cases(rng: Random) -> Iterator[Case]:
    """Words with nothing in common, then ones that begin as a program does."""
    for _ in range(30):
        yield Case([rng.randrange(2**32) for _ in range(rng.randint(1, 20))])
    for _ in range(150):
        n = rng.choice((1, 1, 2))
        start = [head_word(n, 1), *(line_word(source, 0) for source in sources(n))]
        yield Case(start + [random_word(rng) for _ in range(rng.randint(0, 9))])


# ---------------------------------------------------------------- all of them


def all_cases() -> Iterator[Case]:
    # Each group that draws has its own seed, so that one can grow alone.
    yield from good_cases(Random(1))
    yield from one_field_cases()
    yield from truncated_cases(Random(2))
    yield from end_cases(Random(3))
    yield from kind_cases()
    yield from arrangement_cases()
    yield from unnamed_bit_cases(WORKED_PROGRAM)
    yield from head_cases()
    yield from line_source_cases()
    yield from cell_node_cases()
    yield from tap_source_cases()
    yield from tap_order_cases(Random(4))
    yield from output_node_cases()
    yield from late_tap_cases(Random(5))
    yield from zero_pair_cases()
    yield from late_ring_cases()
    yield from line_length_cases(Random(6))
    yield from reader_cases(Random(7))
    yield from two_wrong_line_cases()
    yield from late_fault_cases(Random(8))
    yield from two_fault_cases()
    yield from damaged_cases(Random(9))
    yield from random_word_cases(Random(10))


def stored_cases() -> list[Case]:
    """The cases by their words, the same one kept once."""
    cases: dict[tuple[int, ...], Case] = {}
    for case in all_cases():
        assert case.known in (None, answer_to(case.words)), (case, answer_to(case.words))
        cases.setdefault(tuple(case.words), case)
    return [*cases.values()]
