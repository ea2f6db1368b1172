#!/usr/bin/env python3
"""Checks the must-fail edits without trying them: what an edit replaces has to stand exactly once in its file, and to differ from what it puts there.

    tools/check_edits.py

An edit that no longer fits its file is told in a second; the gate would tell it only after the proofs."""
import glob
import os
import sys


def fault(path):
    """What is wrong with an edit, or None. Of several pairs each applies to what those before it made."""
    crate, name, old, texts, pairs = os.path.dirname(os.path.dirname(path)), None, None, {}, 0
    for line in open(path, encoding="utf-8").read().split("\n"):
        key, _, value = line.partition(":")
        value = value.removeprefix(" ")
        if key == "file":
            name = value
            if name not in texts:
                if not os.path.isfile(os.path.join(crate, name)):
                    return f"names {name}, which is not there"
                texts[name] = open(os.path.join(crate, name), encoding="utf-8").read()
        elif key == "old":
            old = value
        elif key == "new":
            if name is None or old is None:
                return "has a line 'new:' before 'file:' or 'old:'"
            times = texts[name].count(old)
            if times != 1:
                return f"replaces what stands {times} times in {name}"
            if old == value:
                return "changes nothing"
            texts[name] = texts[name].replace(old, value)
            old, pairs = None, pairs + 1
    return None if pairs else "has no lines 'old:' and 'new:'"


def main():
    root = os.path.dirname(os.path.dirname(os.path.abspath(__file__)))
    edits = sorted(glob.glob(os.path.join(root, "crates/*/must-fail/*.edit")))
    faults = [(os.path.relpath(path, root), fault(path)) for path in edits]
    for path, text in faults:
        if text:
            print(f"{path}: {text}")
    print(f"{len(edits)} must-fail edits read")
    return 1 if any(text for _, text in faults) else 0


sys.exit(main())
