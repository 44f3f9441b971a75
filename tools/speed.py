#!/usr/bin/env python3
"""Measures the built console: how long it takes on a design with every feed, beside empty input.

    python3 tools/speed.py CONSOLE [RUNS]

The design has 32 nodes, and each hears all 33 sources: higher-numbered nodes at delay 0, itself, lower-numbered nodes and
the input at delay 127. So it opens and settles. Runs on it and on empty input take turns, with the output thrown away.
"""

import os
import sys
import tempfile
import time
from statistics import median

NODES = 32
DELAY = 127


def word(kind: int, *fields: int) -> int:
    return kind << 28 | sum(fields)


def design() -> list[int]:
    words = [word(1, NODES)]
    for node in range(NODES):
        words.append(word(2, node, node << 5))
        words += [word(3, source, (0 if node < source else DELAY) << 6) for source in range(NODES)]
        words.append(word(3, 32, DELAY << 6))
    words.append(word(4, 0, DELAY << 6))
    words.append(word(5, len(words) + 1))
    return words


def run(console: str, path: str, output: int) -> tuple[float, int]:
    """Seconds from start to end, and the exit status."""
    given = os.open(path, os.O_RDONLY)
    start = time.perf_counter()
    child = os.posix_spawn(
        console, [console], {}, file_actions=[(os.POSIX_SPAWN_DUP2, given, 0), (os.POSIX_SPAWN_DUP2, output, 1)]
    )
    _, status = os.waitpid(child, 0)
    taken = time.perf_counter() - start
    os.close(given)
    return taken, os.waitstatus_to_exitcode(status)


def main() -> None:
    console = sys.argv[1]
    runs = int(sys.argv[2]) if len(sys.argv) > 2 else 1000
    words = design()
    output = os.open(os.devnull, os.O_WRONLY)
    with tempfile.NamedTemporaryFile() as text:
        text.write(b"".join(each.to_bytes(4, "big") for each in words))
        text.flush()
        full, empty = [], []
        for _ in range(runs):
            full.append(run(console, text.name, output))
            empty.append(run(console, os.devnull, output))
    for name, answers in (f"design of {len(words)} words", full), ("empty input", empty):
        times = [taken for taken, _ in answers]
        statuses = sorted({status for _, status in answers})
        print(f"{name}: {runs} runs {sum(times):.3f} s, median {median(times) * 1e6:.0f} us, status {statuses}")
    more = median(taken for taken, _ in full) - median(taken for taken, _ in empty)
    print(f"difference of the medians: {more * 1e6:.0f} us")


main()
