#!/usr/bin/env python3
"""Says which must-fail edits no longer apply: an edit's old text has to stand once in its file. The gate says so too, after half an hour."""
import pathlib
import sys

CRATES = pathlib.Path(__file__).resolve().parents[2] / "crates"


def faults(edit):
    file, old, texts = None, None, {}
    for line in edit.read_text().splitlines():
        word, _, rest = line.partition(": ")
        if word == "file":
            file = edit.parents[1] / rest
        elif word == "old":
            old = rest
        elif line.startswith("new:"):
            text = texts.get(file) or file.read_text()
            if text.count(old) != 1:
                yield f"{edit.relative_to(CRATES)}: stands {text.count(old)} times in {file.relative_to(edit.parents[1])}: {old}"
            texts[file] = text.replace(old, line[4:].removeprefix(" "))
    if not edit.read_text().startswith("# "):
        yield f"{edit.relative_to(CRATES)}: does not begin with a line that says what wrong program it is"


found = [fault for edit in sorted(CRATES.glob("*/must-fail/*.edit")) for fault in faults(edit)]
print("\n".join(found) or "every edit applies")
sys.exit(bool(found))
