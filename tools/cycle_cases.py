#!/usr/bin/env python3
"""Runs a built bench_cases on designs with any number of cycles of zero delays, and checks what it prints.

    python3 tools/cycle_cases.py PROGRAM

Where there are several such cycles, each may be shown: it is held against the design. All else is compared with the bench of
bench_cases.py.
"""

import subprocess
import sys
from collections.abc import Iterator
from itertools import product
from random import Random

from bench_cases import Case, Settle, cyclic_design, is_zero_cycle, open_design, size, small_delay, with_cycle, zero_delay
from word_cases import Design, Node, full_design


def all_three() -> Iterator[Design]:
    """Every design of three nodes whose feeds are between them and have delay 0."""
    for there in product((False, True), repeat=9):
        rows = [there[i * 3 : i * 3 + 3] for i in range(3)]
        yield Design([Node(0, {j: 0 for j in range(3) if row[j]}) for row in rows], (0, 0))


def tangled_design(rng: Random) -> Design:
    """Several cycles in one design, apart or through one another."""
    n = size(rng)
    design = open_design(rng, n, rng.choice((0, 1, 3)), rng.choice((small_delay, zero_delay)))
    for _ in range(rng.randint(1, 4)):
        with_cycle(design, rng.sample(range(n), rng.randint(1, n)))
    return design


def zero_or_late_design(rng: Random) -> Design:
    """Feeds of delay 0 and 1 in any direction, few of them 0."""
    n = size(rng)
    feeds = rng.choice((0.5, 1, 1.5)) / n
    rows = [{j: 0 if rng.random() < feeds else 1 for j in range(n) if rng.random() < 0.5} for _ in range(n)]
    return Design([Node(0, row) for row in rows], (0, 0))


def designs(rng: Random) -> Iterator[Design]:
    yield from all_three()
    yield from (full_design(n, 0) for n in range(1, 33))
    yield from (cyclic_design(rng) for _ in range(500))
    yield from (tangled_design(rng) for _ in range(1000))
    yield from (zero_or_late_design(rng) for _ in range(1000))


def shows_a_cycle(design: Design, lines: list[str]) -> bool:
    """Whether a refusal is followed by a cycle of its length, from the lowest node on."""
    if len(lines) != 2:
        return False
    refused, shown = lines
    name, *nodes = shown.split(" ")
    cycle = [int(node) for node in nodes]
    return (
        refused == f"refused 7 design {len(cycle)} 0"
        and name == "cycle"
        and is_zero_cycle(design, cycle)
        and cycle[0] == min(cycle)
    )


def is_right(case: Case, lines: list[str]) -> bool:
    return lines == list(case.printed()) if case.is_determined else shows_a_cycle(case.design, lines)


def main() -> int:
    cases = [Case(design, Settle()) for design in designs(Random(1))]
    given = "".join(case.given() for case in cases).encode("ascii")
    ran = subprocess.run([sys.argv[1]], input=given, capture_output=True, check=True)
    answers: list[list[str]] = []
    for line in ran.stdout.decode("ascii").splitlines():
        if line.startswith("case "):
            answers.append([])
        else:
            answers[-1].append(line)
    assert len(answers) == len(cases)
    wrong = [number for number, case in enumerate(cases) if not is_right(case, answers[number])]
    for number in wrong:
        print(f"case {number}: {cases[number].given()}  {answers[number]}")
    opened = sum(case.is_open for case in cases)
    several = sum(not case.is_determined for case in cases)
    print(f"cycles: {len(cases)} designs, {opened} opened, {several} with several cycles, {len(wrong)} wrong")
    return 1 if wrong else 0


sys.exit(main())
