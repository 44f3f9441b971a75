#!/usr/bin/env python3
"""Cases for reading a filter design from 32-bit words.

    python3 tools/word_cases.py DIR

writes DIR/stdin, one input a line as hexadecimal bytes, and DIR/stdout, the
design's words or the refusal of each.  The reader and the writer below are made from
the following format alone, so that another reader can be held against them.

A design has n nodes, 1 to 32, numbered from 0.  A node has an operation, 0 to
255, and at most one feed from each source: a node (itself allowed) or the
input, which is source 32.  A feed has a delay, 0 to 255.  The output names a
node and a delay.  Bits 31-28 of a word are its kind:

    1 head    bits 5-0 n
    2 node    bits 4-0 number, bits 12-5 operation
    3 feed    bits 5-0 source, bits 13-6 delay
    4 output  bits 5-0 node,   bits 13-6 delay
    5 end     bits 10-0 number of words, this one counted

All other bits are zero.  The head comes first, then the nodes ascending, each
followed by its feeds ascending by source, then the output and the end.

At each word in turn the reader asks:

    1 is there a word here?
    2 may its kind stand here?
    3 are the unnamed bits zero and the fields in range?
    4 is a node the next one, and a feed's source above the node's last one?
    5 is the end's count right, and is the end the last word?

The first no, at the lowest index, is the refusal.  The input is at most the
first 4368 bytes, big-endian; one to three bytes left over are refused before
any word is read, by question 1 at the number of whole words.
"""

from __future__ import annotations

import struct
import sys
from collections.abc import Iterator
from dataclasses import dataclass, field
from itertools import chain, combinations, count
from pathlib import Path
from random import Random
from typing import NamedTuple

HEAD, NODE, FEED, OUTPUT, END = 1, 2, 3, 4, 5
KINDS = range(16)
INPUT = 32  # the source that is the input, not a node
MOST_NODES = 32
MOST_WORDS = 1 + 32 * (1 + 33) + 1 + 1
TAKEN = 4368  # bytes taken: one word more than the longest design

Words = list[int]


@dataclass
class Node:
    operation: int
    # Delay by source.  An absent feed has no entry: delay 0 is a feed.
    feeds: dict[int, int] = field(default_factory=dict)


@dataclass
class Design:
    nodes: list[Node]
    output: tuple[int, int]  # node and delay


# ---------------------------------------------------------------- writer


def head_word(n: int) -> int:
    return HEAD << 28 | n


def node_word(number: int, operation: int) -> int:
    return NODE << 28 | operation << 5 | number


def feed_word(source: int, delay: int) -> int:
    return FEED << 28 | delay << 6 | source


def output_word(node: int, delay: int) -> int:
    return OUTPUT << 28 | delay << 6 | node


def end_word(total: int) -> int:
    return END << 28 | total


def node_words(number: int, node: Node) -> Iterator[int]:
    yield node_word(number, node.operation)
    for source, delay in sorted(node.feeds.items()):
        yield feed_word(source, delay)


def write(design: Design) -> Words:
    words = [head_word(len(design.nodes))]
    for number, node in enumerate(design.nodes):
        words.extend(node_words(number, node))
    words.append(output_word(*design.output))
    words.append(end_word(len(words) + 1))
    return words


def packed(words: Words) -> bytes:
    return struct.pack(f">{len(words)}I", *words)


# ---------------------------------------------------------------- reader


class Refused(Exception):
    def __init__(self, question: int, place: int) -> None:
        super().__init__(question, place)
        self.question = question
        self.place = place


@dataclass
class SoFar:
    """What the accepted words have said."""

    last: int = 0  # kind of the word before; 0 when there is none
    n: int = 0
    nodes: list[Node] = field(default_factory=list)
    output: tuple[int, int] | None = None


def ask(question: int, place: int, answer: bool) -> None:
    if not answer:
        raise Refused(question, place)


def may_stand(kind: int, so_far: SoFar) -> bool:
    if so_far.last == 0:
        return kind == HEAD
    missing = len(so_far.nodes) < so_far.n
    if kind == NODE:
        return missing
    if kind == FEED:
        return so_far.last in (NODE, FEED)
    if kind == OUTPUT:
        return not missing and so_far.output is None
    return kind == END and so_far.last == OUTPUT


# The bits that are named for each kind, the kind's own four among them.
NAMED = {
    HEAD: 0xF000003F,
    NODE: 0xF0001FFF,
    FEED: 0xF0003FFF,
    OUTPUT: 0xF0003FFF,
    END: 0xF00007FF,
}


def in_range(word: int, so_far: SoFar) -> bool:
    kind = word >> 28
    if word & NAMED[kind] != word:
        return False
    if kind == HEAD:
        return 1 <= (word & 0x3F) <= MOST_NODES
    if kind == NODE:
        return (word & 0x1F) < so_far.n
    if kind == FEED:
        return (word & 0x3F) < so_far.n or (word & 0x3F) == INPUT
    if kind == OUTPUT:
        return (word & 0x3F) < so_far.n
    return True


def in_order(word: int, so_far: SoFar) -> bool:
    kind = word >> 28
    if kind == NODE:
        return (word & 0x1F) == len(so_far.nodes)
    if kind == FEED:
        return all(source < (word & 0x3F) for source in so_far.nodes[-1].feeds)
    return True


def ends_well(word: int, index: int, total: int) -> bool:
    if word >> 28 != END:
        return True
    return (word & 0x7FF) == index + 1 and index + 1 == total


def accept(word: int, so_far: SoFar) -> None:
    so_far.last = word >> 28
    if so_far.last == HEAD:
        so_far.n = word & 0x3F
    elif so_far.last == NODE:
        so_far.nodes.append(Node(word >> 5 & 0xFF))
    elif so_far.last == FEED:
        so_far.nodes[-1].feeds[word & 0x3F] = word >> 6 & 0xFF
    elif so_far.last == OUTPUT:
        so_far.output = (word & 0x3F, word >> 6 & 0xFF)


def read(words: Words) -> Design:
    so_far = SoFar()
    for index in count():
        ask(1, index, index < len(words))
        word = words[index]
        ask(2, index, may_stand(word >> 28, so_far))
        ask(3, index, in_range(word, so_far))
        ask(4, index, in_order(word, so_far))
        ask(5, index, ends_well(word, index, len(words)))
        accept(word, so_far)
        if so_far.last == END:
            break
    assert so_far.output is not None
    return Design(so_far.nodes, so_far.output)


def taken_words(data: bytes) -> Words:
    """The words of an input: what lies past the limit is not looked at."""
    taken = data[:TAKEN]
    whole, left = divmod(len(taken), 4)
    ask(1, whole, left == 0)
    return list(struct.unpack(f">{whole}I", taken))


# ---------------------------------------------------------------- answers


Answer = tuple[int, int]  # question and place of a refusal
ACCEPTED: Answer = (0, 0)


class Case(NamedTuple):
    data: bytes
    # The answer, where the way the case was made settles it.
    known: Answer | None = None


def answer_to_words(words: Words) -> Answer:
    try:
        design = read(words)
    except Refused as refused:
        return refused.question, refused.place
    assert write(design) == words
    return ACCEPTED


def check_lowest(words: Words, answer: Answer) -> None:
    """All words before the refused one must be fit to be read on from, and
    those after it must not matter; only question 5 looks past its word."""
    question, place = answer
    assert answer_to_words(words[:place]) == (1, place)
    if question < 5:
        assert answer_to_words(words[: place + 1]) == answer


def answer_to(data: bytes) -> Answer:
    try:
        words = taken_words(data)
    except Refused as refused:
        return refused.question, refused.place
    answer = answer_to_words(words)
    if answer != ACCEPTED:
        check_lowest(words, answer)
    return answer


def printed(data: bytes, answer: Answer) -> Iterator[str]:
    """The lines of an answer, an accepted design written out anew."""
    if answer == ACCEPTED:
        yield from (f"{word:08X}\n" for word in write(read(taken_words(data))))
    else:
        question, place = answer
        yield f"refused {question} words {place} 0\n"


# ---------------------------------------------------------------- designs


WORKED = Design([Node(0, {0: 1, 1: 0}), Node(1, {INPUT: 0})], (0, 0))
WORKED_WORDS = [
    0x10000002, 0x20000000, 0x30000040, 0x30000001,
    0x20000021, 0x30000020, 0x40000000, 0x50000008,
]
# Kinds that may stand at each index of the worked design; none after its end.
WORKED_KINDS = [
    {HEAD}, {NODE}, {NODE, FEED}, {NODE, FEED},
    {NODE, FEED}, {FEED, OUTPUT}, {FEED, OUTPUT}, {END},
]
ALONE = Design([Node(0)], (0, 0))
# Every bit of an eight-bit field by itself, and both of its ends.
OCTETS = [0, 255, *(1 << bit for bit in range(8))]


def octet(rng: Random) -> int:
    """An operation or a delay, the ends of the range often."""
    return rng.choice((0, 255, rng.randrange(256), rng.randrange(256)))


def sources(n: int) -> list[int]:
    return [*range(n), INPUT]


def random_node(rng: Random, n: int, density: float) -> Node:
    fed = [source for source in sources(n) if rng.random() < density]
    return Node(octet(rng), {source: octet(rng) for source in fed})


def random_design(rng: Random, n: int, density: float) -> Design:
    nodes = [random_node(rng, n, density) for _ in range(n)]
    return Design(nodes, (rng.randrange(n), octet(rng)))


def small_design(rng: Random) -> Design:
    """A handful of nodes, now and then many; the feeds a node stay few."""
    n = rng.choice((1, 2, 2, 3, 3, 4, 5, 6, 8, rng.randint(9, MOST_NODES)))
    return random_design(rng, n, rng.uniform(0, min(1, 3 / n)))


def full_design(n: int, value: int) -> Design:
    """Every feed there, and one value for all operations and delays."""
    feeds = dict.fromkeys(sources(n), value)
    return Design([Node(value, dict(feeds)) for _ in range(n)], (n - 1, value))


def self_fed_design(n: int, delay: int) -> Design:
    nodes = [Node(number, {number: delay}) for number in range(n)]
    return Design(nodes, (0, 255 - delay))


def bare_design(n: int, output: int = 0) -> Design:
    return Design([Node(number) for number in range(n)], (output, 0))


def longest_words(rng: Random) -> Words:
    words = write(random_design(rng, MOST_NODES, 1.1))
    assert len(words) == MOST_WORDS
    return words


# ---------------------------------------------------------------- edits


def replaced(words: Words, at: int, *new: int) -> Words:
    return [*words[:at], *new, *words[at + 1 :]]


def inserted(words: Words, at: int, *new: int) -> Words:
    return [*words[:at], *new, *words[at:]]


def recounted(words: Words) -> Words:
    """The last word made an end with the right count, so that a wrong count
    does not hide whether the words before it are taken."""
    return [*words[:-1], end_word(len(words))]


def with_kind(word: int, kind: int) -> int:
    return word & 0x0FFFFFFF | kind << 28


def places_of(words: Words, kind: int) -> list[int]:
    return [at for at, word in enumerate(words) if word >> 28 == kind]


# ---------------------------------------------------------------- good designs


def good(design: Design) -> Case:
    words = write(design)
    assert read(words) == design
    return Case(packed(words), ACCEPTED)


def plain_designs() -> Iterator[Design]:
    yield WORKED
    yield ALONE
    yield from (full_design(n, value) for n in (1, 2, 5) for value in (0, 255))
    yield full_design(MOST_NODES, 255)
    yield from (self_fed_design(n, delay) for n in (1, 5, 32) for delay in (0, 255))
    yield from (bare_design(n, n - 1) for n in range(1, MOST_NODES + 1))
    yield from (bare_design(MOST_NODES, output) for output in range(MOST_NODES))


def octet_designs() -> Iterator[Design]:
    """Each eight-bit field by itself takes each bit, so that a field read
    from the wrong bits shows."""
    for value in OCTETS:
        yield Design([Node(value)], (0, 0))
        yield Design([Node(0, {0: value})], (0, 0))
        yield Design([Node(0, {INPUT: value})], (0, 0))
        yield Design([Node(0)], (0, value))


def one_feed_designs() -> Iterator[Design]:
    """Each source by itself feeds the last of 32 nodes."""
    for source in sources(MOST_NODES):
        design = bare_design(MOST_NODES)
        design.nodes[-1].feeds[source] = source
        yield design


def random_designs(rng: Random) -> Iterator[Design]:
    for n in range(1, MOST_NODES + 1):
        yield random_design(rng, n, 2 / (n + 1))
    for n in range(1, MOST_NODES + 1, 3):
        yield random_design(rng, n, 0.6)
    for _ in range(150):
        yield small_design(rng)
    yield random_design(rng, MOST_NODES, 1.1)


def good_cases(rng: Random) -> Iterator[Case]:
    assert write(WORKED) == WORKED_WORDS
    yield from map(good, plain_designs())
    yield from map(good, octet_designs())
    yield from map(good, one_feed_designs())
    yield from map(good, random_designs(rng))


# ---------------------------------------------------------------- lengths


def cut(data: bytes, length: int) -> Case:
    """Left-over bytes and a missing word are refused alike."""
    return Case(data[:length], (1, length // 4))


def truncated_cases(rng: Random) -> Iterator[Case]:
    yield Case(b"", (1, 0))
    for design in (WORKED, ALONE, random_design(rng, 3, 0.7)):
        data = packed(write(design))
        yield from (cut(data, length) for length in range(len(data)))
    data = packed(write(random_design(rng, 6, 0.8)))
    yield from (cut(data, length) for length in range(0, len(data), 4))
    data = packed(longest_words(rng))
    for less in (1, 2, 3, 4, 5, 8, 2048, 2049):
        yield cut(data, len(data) - less)


def padded(data: bytes, words: int, length: int) -> Case:
    """A good design's bytes, followed by zeros up to a length."""
    whole, left = divmod(min(length, TAKEN), 4)
    known = (1, whole) if left else (5, words - 1)
    return Case(data.ljust(length, b"\0"), known)


def past_end_cases(rng: Random) -> Iterator[Case]:
    """More after the end word, around the limit and far from it."""
    longest = packed(longest_words(rng))
    for more in (1, 2, 3, 4, 5, 6, 7, 8):
        yield padded(longest, MOST_WORDS, len(longest) + more)
    yield Case(longest + rng.randbytes(4), (5, MOST_WORDS - 1))
    yield Case(longest + rng.randbytes(1001), (5, MOST_WORDS - 1))
    for length in (4363, 4364, 4367, 4368, 4369, 4371, 4372):
        yield padded(packed(WORKED_WORDS), len(WORKED_WORDS), length)


def endless_cases(rng: Random) -> Iterator[Case]:
    """Many words and no end."""
    longest = longest_words(rng)
    no_end, no_output = longest[:-1], longest[:-2]
    output, feed = no_end[-1], no_output[-1]
    yield Case(packed(no_end), (1, 1090))
    yield from (Case(packed(no_end) + bytes(left), (1, 1090)) for left in (1, 2, 3))
    yield Case(packed(no_end + [output] * 2), (2, 1090))
    yield Case(packed(no_end + [output] * 9), (2, 1090))
    yield Case(packed(no_output), (1, 1089))
    yield Case(packed(no_output + [feed] * 3), (4, 1089))
    yield Case(packed(no_output + [node_word(0, 0)] * 5), (2, 1089))
    yield Case(packed(no_output + [end_word(1090)] * 3), (2, 1089))
    yield Case(packed([head_word(1)] * 1092), (2, 1))
    yield Case(packed([head_word(32), *[node_word(0, 0)] * 1100]), (4, 2))
    feeds = [feed_word(INPUT, 0)] * 1090
    yield Case(packed([head_word(1), node_word(0, 0), *feeds]), (4, 3))


def garbage(rng: Random, length: int) -> Case:
    whole, left = divmod(min(length, TAKEN), 4)
    return Case(rng.randbytes(length), (1, whole) if left else None)


def long_cases(rng: Random) -> Iterator[Case]:
    yield from past_end_cases(rng)
    yield from endless_cases(rng)
    below = (101, 102, 103, 4361, 4362, 4363, 4365, 4366, 4367)
    above = (4368, 4369, 4370, 4371, 4372, 6001, 6002, 6003)
    yield from (garbage(rng, length) for length in below + above)
    yield from (Case(bytes(length), (2, 0)) for length in (4, 4368, 4369, 4371))
    yield from (Case(b"\xff" * length, (2, 0)) for length in (4, 4364, 4370))


# ---------------------------------------------------------------- kinds


def kind_cases() -> Iterator[Case]:
    """Every kind in place of every word, the other bits kept."""
    for at, may in enumerate(WORKED_KINDS):
        for kind in KINDS:
            words = replaced(WORKED_WORDS, at, with_kind(WORKED_WORDS[at], kind))
            yield Case(packed(words), None if kind in may else (2, at))


def inserted_kind_cases() -> Iterator[Case]:
    """Every kind before every word, bare and with that word's other bits."""
    for at, may in enumerate(WORKED_KINDS):
        for kind in KINDS:
            for model in (0, WORKED_WORDS[at]):
                words = inserted(WORKED_WORDS, at, with_kind(model, kind))
                known = None if kind in may else (2, at)
                yield Case(packed(words), known)


def recounted_kind_cases() -> Iterator[Case]:
    """The permitted kinds once more, with the count put right."""
    for at, may in enumerate(WORKED_KINDS):
        for kind in sorted(may):
            yield Case(packed(recounted(inserted(WORKED_WORDS, at, kind << 28))))


def arrangement_cases() -> Iterator[Case]:
    """Words that are missing, that come twice, or that stand where their
    kind may not; the counts are right."""
    head, node, second = head_word(2), node_word(0, 7), node_word(1, 5)
    feed, output = feed_word(0, 3), output_word(0, 9)
    arrangements = [
        ([head], 1),
        ([head, output], 1),
        ([head, feed], 1),
        ([head, feed, node, second, output], 1),
        ([head, head, node, second, output], 1),
        ([head, node, head, second, output], 2),
        ([head, node, second, head, output], 3),
        ([head, node, second, output, head], 4),
        ([node, second, output], 0),
        ([node, head, second, output], 0),
        ([feed, head, node, second, output], 0),
        ([output, head, node, second], 0),
        ([head, node], 2),
        ([head, node, feed], 3),
        ([head, node, output], 2),
        ([head, node, feed, output], 3),
        ([head, node, output, second], 2),
        ([head, node, second], 3),
        ([head, node, second, feed], 4),
        ([head, node, second, second, output], 3),
        ([head, node, second, node_word(2, 0), output], 3),
        ([head, node, second, feed, second, output], 4),
        ([head, node, second, output, output], 4),
        ([head, node, second, output, feed], 4),
        ([head, node, second, output, node], 4),
        ([head, node, second, output, feed, output], 4),
        ([head_word(3), node, second, output], 3),
        ([head_word(1), node, second, output], 2),
        ([head_word(32), node, second, feed, output], 4),
        ([], 0),
    ]
    for words, place in arrangements:
        yield Case(packed([*words, end_word(len(words) + 1)]), (2, place))
    assert answer_to_words([head, node, second, output, end_word(5)]) == ACCEPTED


# ---------------------------------------------------------------- fields


def unnamed_bit_cases() -> Iterator[Case]:
    """Each unnamed bit of each word, one at a time."""
    top_named = {HEAD: 5, NODE: 12, FEED: 13, OUTPUT: 13, END: 10}
    for at, word in enumerate(WORKED_WORDS):
        for bit in range(top_named[word >> 28] + 1, 28):
            yield Case(packed(replaced(WORKED_WORDS, at, word | 1 << bit)), (3, at))


def head_cases() -> Iterator[Case]:
    """Every n out of range, then some that are in range but not the two of
    the nodes that follow."""
    for n in (0, *range(33, 64)):
        yield Case(packed(replaced(WORKED_WORDS, 0, head_word(n))), (3, 0))
    bare = write(bare_design(2))
    yield Case(packed(replaced(bare, 0, head_word(1))), (2, 2))
    for n in (3, 4, 31, 32):
        # Nodes are missing where the output stands.
        yield Case(packed(replaced(bare, 0, head_word(n))), (2, 3))


def node_number_cases() -> Iterator[Case]:
    """Every number in place of the right one: repeated, skipped, out of range."""
    n = 3
    words = write(full_design(n, 1))
    for right, at in enumerate(places_of(words, NODE)):
        for number in range(32):
            wrong = (4, at) if number < n else (3, at)
            known = ACCEPTED if number == right else wrong
            yield Case(packed(replaced(words, at, node_word(number, 1))), known)


def feed_source_cases() -> Iterator[Case]:
    """Every source in place of that of a node's second feed, where n is 2 and
    the first feed is from node 0."""
    at = 3
    known = {0: (4, at), 1: ACCEPTED, INPUT: ACCEPTED}
    for source in range(64):
        words = replaced(WORKED_WORDS, at, feed_word(source, 0))
        yield Case(packed(words), known.get(source, (3, at)))


def feed_order_cases() -> Iterator[Case]:
    """Each feed's source taken from each feed of the same node before it."""
    words = write(full_design(4, 2))
    first = places_of(words, NODE)[-1] + 1
    for early, late in combinations(range(first, first + 5), 2):
        yield Case(packed(replaced(words, late, words[early])), (4, late))
        exchanged = replaced(replaced(words, late, words[early]), early, words[late])
        yield Case(packed(exchanged), (4, early + 1))


def output_node_cases() -> Iterator[Case]:
    for n in (2, MOST_NODES):
        words = write(bare_design(n))
        at = len(words) - 2
        for node in range(n, 64):
            yield Case(packed(replaced(words, at, output_word(node, 0))), (3, at))


def edge_cases(n: int) -> Iterator[Case]:
    """The least number out of range for n nodes, wherever one is named; for
    n = 32 the input is what follows the last node."""
    words = write(bare_design(n))
    output, last_node = len(words) - 2, len(words) - 3
    fed = recounted(inserted(words, output, feed_word(n, 0)))
    yield Case(packed(fed), ACCEPTED if n == INPUT else (3, output))
    fed = recounted(inserted(words, output, feed_word(33, 0)))
    yield Case(packed(fed), (3, output))
    fed = recounted(inserted(words, output, feed_word(n - 1, 0), feed_word(INPUT, 0)))
    yield Case(packed(fed), ACCEPTED)
    yield Case(packed(replaced(words, output, output_word(n, 0))), (3, output))
    if n < MOST_NODES:
        yield Case(packed(replaced(words, last_node, node_word(n, 0))), (3, last_node))


def field_cases() -> Iterator[Case]:
    yield from unnamed_bit_cases()
    yield from head_cases()
    yield from node_number_cases()
    yield from feed_source_cases()
    yield from feed_order_cases()
    yield from output_node_cases()
    yield from chain.from_iterable(map(edge_cases, range(1, MOST_NODES + 1)))


# ---------------------------------------------------------------- the end


def count_cases(words: Words) -> Iterator[Case]:
    """Counts off by one, at the ends of the range, and wrong in one bit."""
    right, at = len(words), len(words) - 1
    flips = (right ^ 1 << bit for bit in range(11))
    for wrong in (right - 1, right + 1, 0, 2047, *flips):
        yield Case(packed(replaced(words, at, end_word(wrong))), (5, at))


def after_end_cases(words: Words) -> Iterator[Case]:
    """Whole words after the end, then one to three bytes."""
    data, at = packed(words), len(words) - 1
    tails = [[kind << 28] for kind in KINDS]
    tails += [[0, 0, 0], words, words * 2, [words[-1]], [end_word(len(words) + 1)]]
    yield from (Case(data + packed(tail), (5, at)) for tail in tails)
    # A count that takes the tail in does not help.
    counted = replaced(words, at, end_word(len(words) + 1))
    yield Case(packed([*counted, 0]), (5, at))
    yield Case(packed([*counted, end_word(len(words) + 1)]), (5, at))
    for left in (1, 2, 3):
        yield Case(data + b"\0" * left, (1, len(words)))
        yield Case(data + b"\x50" * left, (1, len(words)))


def end_cases(rng: Random) -> Iterator[Case]:
    for words in (WORKED_WORDS, write(ALONE), write(random_design(rng, 4, 0.5))):
        yield from count_cases(words)
        yield from after_end_cases(words)
    longest = longest_words(rng)
    for wrong in (0, 67, 1090, 1092, 2047):
        yield Case(packed(replaced(longest, 1090, end_word(wrong))), (5, 1090))


# ---------------------------------------------------------------- several faults


class Fault(NamedTuple):
    """One word put in the worked design, and the question that refuses it."""

    place: int
    word: int
    question: int


UNNAMED = 1 << 27
# Many of these fail a later question too: the lowest number is the answer.
# They stand in ascending order of place.
FAULTS = [
    Fault(0, 0x00000000, 2),
    Fault(0, node_word(0, 0) | UNNAMED, 2),
    Fault(0, head_word(0) | UNNAMED, 3),
    Fault(1, output_word(63, 0) | UNNAMED, 2),
    Fault(1, node_word(1, 0) | UNNAMED, 3),
    Fault(1, node_word(31, 255), 3),
    Fault(1, node_word(1, 255), 4),
    Fault(2, end_word(9) | UNNAMED, 2),
    Fault(2, feed_word(2, 0), 3),
    Fault(3, head_word(63) | UNNAMED, 2),
    Fault(3, feed_word(0, 0) | UNNAMED, 3),
    Fault(3, feed_word(0, 255), 4),
    Fault(4, output_word(1, 0), 2),
    Fault(4, node_word(0, 1) | UNNAMED, 3),
    Fault(4, node_word(0, 1), 4),
    Fault(5, node_word(9, 0) | UNNAMED, 2),
    Fault(5, feed_word(33, 0), 3),
    Fault(6, end_word(0), 2),
    Fault(6, feed_word(31, 0), 3),
    Fault(6, feed_word(1, 0), 4),
    Fault(7, output_word(2, 0), 2),
    Fault(7, end_word(0) | UNNAMED, 3),
    Fault(7, end_word(7), 5),
]


def two_fault_cases() -> Iterator[Case]:
    """The fault at the lower place is the one that is found."""
    for one, two in combinations(FAULTS, 2):
        if one.place < two.place:
            words = replaced(WORKED_WORDS, one.place, one.word)
            words = replaced(words, two.place, two.word)
            yield Case(packed(words), (one.question, one.place))


def one_fault_cases() -> Iterator[Case]:
    """A fault by itself, with a tail that must not hide it, and with a
    left-over byte that must."""
    for place, word, question in FAULTS:
        data = packed(replaced(WORKED_WORDS, place, word))
        yield Case(data, (question, place))
        yield Case(data + packed([end_word(9)]), (question, place))
        yield Case(data + b"\x50", (1, 8))


def late_fault_cases(rng: Random) -> Iterator[Case]:
    """Faults in the last feed, the output and the end of a longest design."""
    longest = longest_words(rng)
    late_faults = [
        Fault(1088, output_word(0, 0) | UNNAMED, 3),
        Fault(1088, feed_word(33, 0), 3),
        Fault(1088, longest[1087], 4),
        Fault(1089, output_word(32, 0), 3),
        Fault(1089, feed_word(INPUT, 0), 4),
        Fault(1090, longest[1090] | UNNAMED, 3),
    ]
    for place, word, question in late_faults:
        yield Case(packed(replaced(longest, place, word)), (question, place))


# ---------------------------------------------------------------- random damage


def random_word(rng: Random) -> int:
    """A word of some kind with small fields, so that it is often taken."""
    small = rng.choice((0, 1, 2, 3, 32, rng.randrange(64)))
    return rng.choice((1, 2, 2, 3, 3, 3, 4, 5)) << 28 | octet(rng) << 6 | small


def flip_any_bit(rng: Random, words: Words) -> Words:
    at = rng.randrange(len(words))
    return replaced(words, at, words[at] ^ 1 << rng.randrange(32))


def flip_field_bit(rng: Random, words: Words) -> Words:
    at = rng.randrange(len(words))
    return replaced(words, at, words[at] ^ 1 << rng.randrange(14))


def swap_words(rng: Random, words: Words) -> Words:
    one, two = rng.randrange(len(words)), rng.randrange(len(words))
    return replaced(replaced(words, one, words[two]), two, words[one])


def swap_neighbours(rng: Random, words: Words) -> Words:
    at = rng.randrange(len(words))
    return [*words[:at], *reversed(words[at : at + 2]), *words[at + 2 :]]


def drop_word(rng: Random, words: Words) -> Words:
    return replaced(words, rng.randrange(len(words)))


def repeat_word(rng: Random, words: Words) -> Words:
    at = rng.randrange(len(words))
    return inserted(words, at, words[at])


def copy_word(rng: Random, words: Words) -> Words:
    return inserted(words, rng.randrange(len(words) + 1), rng.choice(words))


def insert_word(rng: Random, words: Words) -> Words:
    return inserted(words, rng.randrange(len(words) + 1), random_word(rng))


def replace_word(rng: Random, words: Words) -> Words:
    return replaced(words, rng.randrange(len(words)), random_word(rng))


DAMAGES = [
    flip_any_bit,
    flip_field_bit,
    swap_words,
    swap_neighbours,
    drop_word,
    repeat_word,
    copy_word,
    insert_word,
    replace_word,
]


def damaged(rng: Random, words: Words) -> Words:
    """One damage, at times followed by more; a good design has four words at
    least, so that three losses leave one."""
    for _ in range(rng.choice((1, 1, 1, 1, 2, 3))):
        words = rng.choice(DAMAGES)(rng, words)
    return recounted(words) if rng.random() < 0.4 else words


def damaged_cases(rng: Random) -> Iterator[Case]:
    for damage in DAMAGES:
        for _ in range(45):
            yield Case(packed(damage(rng, write(small_design(rng)))))
    for _ in range(700):
        yield Case(packed(damaged(rng, write(small_design(rng)))))
    for _ in range(12):
        yield Case(packed(damaged(rng, longest_words(rng))))


def damaged_byte_cases(rng: Random) -> Iterator[Case]:
    """One byte lost or gained: the words after it are read askew."""
    for _ in range(20):
        data = packed(write(small_design(rng)))
        at = rng.randrange(len(data))
        yield Case(data[:at] + data[at + 1 :], (1, len(data) // 4 - 1))
        yield Case(data[:at] + rng.randbytes(1) + data[at:], (1, len(data) // 4))
        yield Case(data[:at] + rng.randbytes(4) + data[at:])


# ---------------------------------------------------------------- random input


def random_word_cases(rng: Random) -> Iterator[Case]:
    """Words with nothing in common, then ones that begin as a design does."""
    for _ in range(50):
        yield Case(rng.randbytes(4 * rng.randint(1, 30)))
    for _ in range(150):
        start = [head_word(rng.randint(1, 3)), node_word(0, octet(rng))]
        more = [random_word(rng) for _ in range(rng.randint(0, 9))]
        yield Case(packed(start + more))


def random_byte_cases(rng: Random) -> Iterator[Case]:
    for _ in range(100):
        yield Case(rng.randbytes(rng.randint(1, 60)))
    for _ in range(50):
        start = packed([head_word(rng.randint(0, 40))])
        yield Case(start + rng.randbytes(rng.randint(1, 40)))


# ---------------------------------------------------------------- all of them


def all_cases() -> Iterator[Case]:
    # Each group that draws has its own seed, so that one can grow alone.
    yield from good_cases(Random(1))
    yield from truncated_cases(Random(2))
    yield from kind_cases()
    yield from inserted_kind_cases()
    yield from recounted_kind_cases()
    yield from arrangement_cases()
    yield from field_cases()
    yield from end_cases(Random(3))
    yield from one_fault_cases()
    yield from two_fault_cases()
    yield from long_cases(Random(4))
    yield from damaged_cases(Random(5))
    yield from damaged_byte_cases(Random(6))
    yield from random_word_cases(Random(7))
    yield from random_byte_cases(Random(8))
    yield from late_fault_cases(Random(9))


def answered(cases: Iterator[Case]) -> dict[bytes, Answer]:
    """The answer to each input, the same input kept once, in order."""
    answers: dict[bytes, Answer] = {}
    for case in cases:
        answer = answers.setdefault(case.data, answer_to(case.data))
        assert case.known in (None, answer), (case.data.hex(), case.known, answer)
    return answers


def case_lines(answers: dict[bytes, Answer]) -> Iterator[str]:
    for number, (data, answer) in enumerate(answers.items()):
        yield f"case {number}\n"
        yield from printed(data, answer)


def save(path: Path, lines: Iterator[str]) -> None:
    path.write_bytes("".join(lines).encode("ascii"))


def main(directory: str) -> None:
    answers = answered(all_cases())
    target = Path(directory)
    target.mkdir(parents=True, exist_ok=True)
    save(target / "stdin", (data.hex().upper() + "\n" for data in answers))
    save(target / "stdout", case_lines(answers))


if __name__ == "__main__":
    if len(sys.argv) != 2:
        sys.exit("usage: word_cases.py DIR")
    main(sys.argv[1])
