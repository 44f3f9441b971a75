#!/usr/bin/env python3
"""Spells this repository's own definitions and lemmas in snake case: python3 tools/respell.py

Once, at the top of the repository, after the library's names were brought to their present spelling. A name counts as the repository's own
where specs/ or proofs/ declare it. Names that Rattle makes from the code (goals, steps of a proof) keep their dashes, and so do comments
and texts.
"""

from __future__ import annotations

import re
import sys
from collections import defaultdict
from pathlib import Path

SIGNATURE = re.compile(r"^\s*(?:abbrev |unfoldable |pub )*((?:[^\s(){},;:.]+ )+): (.*)$")
TYPE = re.compile(r"^(?:pub )?(?:record|data) (\S+)")
GOAL = re.compile(r"^(?:\(.*\) → )?(?:goal|need)\.")
WORD = re.compile(r"[^\s(){}\[\],;:.◌⟨⟩|λ∥⌜⌝\"]+")
NOT_NAMES = {"let", "use", "in", "λ", "elim", "|"}
# facts, which are spelled as types
FACTS = {"crates/words/proofs/Refusing.antt": {"placed_at": "IsPlacedAt"}, "crates/cells/proofs/Choosing.antt": {"bound": "Bounds"}}


def proof_files(root: Path) -> list[Path]:
    return sorted(root.glob("crates/*/specs/**/*.antt")) + sorted(root.glob("crates/*/proofs/**/*.antt"))


def declared(root: Path) -> set[str]:
    names: set[str] = set()
    for path in proof_files(root):
        for line in path.read_text(encoding="utf-8").splitlines():
            if line.strip().startswith("--"):
                continue
            if found := TYPE.match(line.strip()):
                names.add(found.group(1))
            elif (found := SIGNATURE.match(line)) and not GOAL.match(found.group(2)):
                own = found.group(1).split()
                if own[0] not in NOT_NAMES:
                    names.update(own)
    return {name for name in names if "-" in name}


def snake(name: str) -> str:
    return name.replace("-", "_")


def respelled(line: str, names: dict[str, str]) -> str:
    return WORD.sub(lambda found: names.get(found.group(0), found.group(0)), line)


def respell(path: Path, names: dict[str, str]) -> bool:
    old = path.read_text(encoding="utf-8")
    comment = "--" if path.suffix == ".antt" else "//"
    new = "".join(line if line.strip().startswith(comment) else respelled(line, names) for line in old.splitlines(keepends=True))
    if new != old:
        path.write_text(new, encoding="utf-8")
    return new != old


def main() -> int:
    root = Path(".")
    names = declared(root)
    every = defaultdict(set)
    for name in names:
        every[snake(name)].add(name)
    together = {key: old for key, old in every.items() if len(old) > 1}
    if together:
        print(f"names that would fall together: {together}")
        return 1
    files = proof_files(root) + sorted(root.glob("crates/*/src/**/*.rt"))
    changed = sum(respell(path, {name: snake(name) for name in names} | FACTS.get(str(path), {})) for path in files)
    print(f"{len(names)} names, {changed} files")
    return 0


if __name__ == "__main__":
    sys.exit(main())
