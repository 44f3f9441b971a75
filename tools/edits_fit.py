#!/usr/bin/env python3
"""Says of each must-fail edit whether it fits the code: each text that it replaces stands once in its file.

Use: tools/edits_fit.py, at the top of the repository. It ends with status 1 where one does not fit.
"""

import sys
from pathlib import Path


def parts(edit):
    """The edit's pairs: a file, a text in it and what replaces it."""
    lines = [line.split(": ", 1) for line in edit.read_text().splitlines() if line.strip()]
    file = old = None
    for key, text in lines:
        if key == "file":
            file = text
        elif key == "old":
            old = text
        elif key == "new":
            yield file, old, text


def misfit(edit):
    """What does not fit, or None. Later pairs apply to what the earlier ones made."""
    crate = edit.parent.parent
    sources = {}
    for file, old, new in parts(edit):
        source = sources.get(file) or (crate / file).read_text()
        if source.count(old) != 1:
            return f"{old!r} stands {source.count(old)} times in {file}"
        if old == new:
            return f"{old!r} is replaced by itself"
        sources[file] = source.replace(old, new)
    return None if sources else "it has no pair"


def main():
    edits = sorted(Path("crates").glob("*/must-fail/*.edit"))
    wrong = [(edit, why) for edit in edits if (why := misfit(edit))]
    for edit, why in wrong:
        print(f"{edit}: {why}")
    print(f"{len(edits)} edits, {len(wrong)} that do not fit")
    return 1 if wrong else 0


if __name__ == "__main__":
    sys.exit(main())
