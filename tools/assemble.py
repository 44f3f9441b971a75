#!/usr/bin/env python3
"""Turns a text of words into the bytes that the console reads.

    python3 tools/assemble.py TEXT > BYTES

A line that begins with # says what the design is; any other line is one word, eight hexadecimal digits.
"""

import sys
from pathlib import Path


def words(text: str) -> list[int]:
    lines = (line.strip() for line in text.splitlines())
    return [int(line, 16) for line in lines if line and not line.startswith("#")]


def main() -> None:
    text = Path(sys.argv[1]).read_text(encoding="ascii")
    sys.stdout.buffer.write(b"".join(word.to_bytes(4, "big") for word in words(text)))


main()
