#!/usr/bin/env python3
"""Runs a built console on many inputs, and compares what it prints and how it ends.

    python3 tools/console_cases.py CONSOLE DIR

The inputs are those of DIR/stdin, one a line as hexadecimal bytes, the designs of bench_cases.py, and designs with delays that settling
brings to the limit. DIR/stdout has what reading answers to each of the first: a refusal, which the console has to print, or the
design's words. What it has to print of a design comes from the bench of bench_cases.py:

    a cycle of zero delays      a refusal by 7, with the length of any such cycle
    settling is refused         that refusal
    else                        the words of the settled bench's program, one a line

A program ends with status 0, and a refusal, which is one line, with status 1. Some inputs are given again in two parts, the second a
little later.
"""

from __future__ import annotations

import subprocess
import sys
import time
from collections import Counter
from collections.abc import Callable, Iterator
from functools import partial
from pathlib import Path
from typing import NamedTuple

from bench_cases import MOST_DELAY, Bench, Refused, Row, Settle, all_cases, chain_design, is_zero_cycle, on_zero_cycles, zero_feeds
from word_cases import INPUT, MOST_NODES, Design, packed, read, write

MOST_TRIES = 100_000  # of a search for a cycle; one that needs more counts as not found


class Case(NamedTuple):
    given: bytes
    question: int  # the one that refuses it, 0 where a program is printed
    is_wanted: Callable[[bytes], bool]  # of what is printed


# ---------------------------------------------------------------- cycles


def nodes_before(feeds: list[set[int]], low: int, length: int) -> list[set[int]]:
    """By number of steps up to a length, the nodes from which a node is met in so many, over none below it."""
    before = [{low}]
    for _ in range(length):
        before.append({node for node in range(low, len(feeds)) if feeds[node] & before[-1]})
    return before


def has_zero_cycle(design: Design, length: int) -> bool:
    """Whether a cycle of zero delays has that length, by trying paths from each node over higher ones."""
    feeds = zero_feeds(design)
    tries = 0
    for low in range(len(feeds)):
        before = nodes_before(feeds, low, length)
        paths: list[Row] = [[low]] if low in before[length] else []
        while paths and tries < MOST_TRIES:
            tries += 1
            path = paths.pop()
            if len(path) == length:
                assert is_zero_cycle(design, path)
                return True
            following = feeds[path[-1]] & before[length - len(path)]
            paths += [[*path, node] for node in following.difference(path)]
    return False


def shows_a_cycle(design: Design, printed: bytes) -> bool:
    lengths = range(1, len(design.nodes) + 1)
    shown = [length for length in lengths if exactly(Refused(7, length, 0).line, printed)]
    return any(has_zero_cycle(design, length) for length in shown)


# ---------------------------------------------------------------- cases


def exactly(line: str, printed: bytes) -> bool:
    return printed == f"{line}\n".encode("ascii")


def refused_case(given: bytes, line: str) -> Case:
    return Case(given, int(line.split(" ")[1]), partial(exactly, line))


def design_case(given: bytes, design: Design) -> Case:
    if on_zero_cycles(design):
        return Case(given, 7, partial(shows_a_cycle, design))
    try:
        program = Bench(design).made(Settle()).program()
    except Refused as refused:
        return refused_case(given, refused.line)
    return Case(given, 0, partial(exactly, "\n".join(f"{word:08X}" for word in program)))


def stored_answers(folder: Path) -> Iterator[tuple[bytes, list[str]]]:
    """The stored inputs, each with the lines that reading it answers."""
    inputs = (folder / "stdin").read_text(encoding="ascii").split("\n")[:-1]
    answers: list[list[str]] = []
    for line in (folder / "stdout").read_text(encoding="ascii").splitlines():
        if line.startswith("case "):
            answers.append([])
        else:
            answers[-1].append(line)
    assert len(inputs) == len(answers)
    yield from zip(map(bytes.fromhex, inputs), answers)


def limit_designs() -> Iterator[Design]:
    """Chains with one delay that settling brings to the limit or past it: of the output, or of a feed from the input or from a node near
    or far in rank."""
    for n in (16, 17, 21, 31, MOST_NODES):
        most = MOST_DELAY // n
        for delay in range(most - 1, min(most + 2, 255) + 1):
            for order in (list(range(n)), list(reversed(range(n)))):
                yield Design(chain_design(order, 0).nodes, (order[-1], delay))
                for i, j in ((0, 0), (0, 1), (0, n - 1), (n - 1, 0), (n - 1, n - 1), (0, INPUT), (n - 1, INPUT)):
                    design = chain_design(order, 0)
                    design.nodes[order[i]].feeds[j if j == INPUT else order[j]] = delay
                    yield design


def cases(folder: Path) -> list[Case]:
    """An input is kept once."""
    found: dict[bytes, Case] = {}
    for given, answer in stored_answers(folder):
        if answer[0].startswith("refused "):
            found[given] = refused_case(given, *answer)
        else:
            found[given] = design_case(given, read([int(word, 16) for word in answer]))
    for design in (*(case.design for case in all_cases()), *limit_designs()):
        given = packed(write(design))
        if given not in found:
            found[given] = design_case(given, design)
    return list(found.values())


# ---------------------------------------------------------------- runs


class Ran(NamedTuple):
    out: bytes
    err: bytes
    status: int


def at_once(console: str, given: bytes) -> Ran:
    ran = subprocess.run([console], input=given, capture_output=True)
    return Ran(ran.stdout, ran.stderr, ran.returncode)


def in_parts(console: str, given: bytes) -> Ran:
    pipe = subprocess.PIPE
    with subprocess.Popen([console], stdin=pipe, stdout=pipe, stderr=pipe) as running:
        assert running.stdin
        running.stdin.write(given[: len(given) // 2])
        running.stdin.flush()
        time.sleep(0.05)
        out, err = running.communicate(given[len(given) // 2 :])
        return Ran(out, err, running.returncode)


def is_wrong(case: Case, ran: Ran) -> bool:
    status = 1 if case.question else 0
    if case.is_wanted(ran.out) and ran.err == b"" and ran.status == status:
        return False
    wanted = f"a refusal by {case.question}" if case.question else "a program"
    print(f"{case.given[:80].hex()}: wanted {wanted}, got status {ran.status}, printed {ran.out[:80]!r} {ran.err[:80]!r}")
    return True


def main() -> int:
    console, folder = sys.argv[1], Path(sys.argv[2])
    whole = cases(folder)
    wrong = sum(is_wrong(case, at_once(console, case.given)) for case in whole)
    print(f"console: {len(whole)} inputs, {wrong} wrong")
    for question, times in sorted(Counter(case.question for case in whole).items()):
        print(f"console: {times} refused by {question}" if question else f"console: {times} programs")
    parted = whole[::40]
    late = sum(is_wrong(case, in_parts(console, case.given)) for case in parted)
    print(f"console: {len(parted)} inputs in two parts, {late} wrong")
    return 1 if wrong or late else 0


if __name__ == "__main__":
    sys.exit(main())
