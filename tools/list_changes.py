#!/usr/bin/env python3
"""Writes the last sections of docs/DESIGN-PASS.md: the functions that went, and the signatures, clauses and definitions that changed since the commit that the page names.

    tools/list_changes.py LIST.json

LIST.json is what the kit's list of contracts gives for the tree of that commit and this one, as JSON. What states the promise of a function that went is told by hand: a row that the page
has already is kept, a new one gets a `?`. The section on lemmas that went is kept as it stands."""
import json
import re
import sys

PAGE = "docs/DESIGN-PASS.md"
FIRST = "## Functions that went, and what states their promise now"
LEMMAS = "## Lemmas that went, and what states their promise now"


def place(name):
    return name.replace(" src/lib.rt ", " ").replace(" src/", " ")


def text(value):
    if isinstance(value, list):
        return "; ".join(text(v) for v in value)
    return re.sub(r"\s+", " ", str(value))


def clause(kind, named):
    name, fact = named
    return "%s %s{ %s }" % (kind, name + " " if name else "", text(fact))


def section(title, rule, lines):
    return ["## " + title, "", rule, "", "```text"] + lines + ["```", ""]


def main():
    changes = json.load(open(sys.argv[1], encoding="utf-8"))
    page = open(PAGE, encoding="utf-8").read()
    known = {name: row for row, name in re.findall(r"^(\| `(\w+::\w+)`[^|]* \| .* \|)$", page, re.M)}

    out = [FIRST, "", "| was | promise |", "|---|---|"]
    for row in changes["functions not found again"]:
        crate, name = re.match(r"(\S+) \S+ (\S+)", row).groups()
        key = crate + "::" + name
        out.append(known.get(key, "| `%s` | ? |" % key))
    out.append("")

    # LIST.json has no lemmas
    out += re.search("^%s$.*?(?=^## )" % re.escape(LEMMAS), page, re.M | re.S)[0].splitlines()

    both = "Old behind `-`, new behind `+`."
    lines = []
    for name, old, new in changes["signatures changed"]:
        lines += [place(name), "  - " + text(old), "  + " + text(new)]
    out += section("Signatures that changed", both, lines)

    lines = []
    for name, old_requires, old_ensures, new_requires, new_ensures in changes["contracts changed"]:
        old = [("requires", c) for c in old_requires] + [("ensures", c) for c in old_ensures]
        new = [("requires", c) for c in new_requires] + [("ensures", c) for c in new_ensures]
        lines.append(place(name))
        lines += ["  - " + clause(*c) for c in old if c not in new]
        lines += ["  + " + clause(*c) for c in new if c not in old]
    out += section("Clauses that changed", both[:-1] + "; what stayed the same is left out.", lines)

    lines = ["gone: " + " ".join(row) for row in changes["definitions"].get("gone", [])]
    for crate, name, old, new in changes["definitions"].get("changed", []):
        lines += [crate + " " + name, "  - " + text(old), "  + " + text(new)]
    out += section("Definitions that changed", both, lines)

    head = page[: page.index(FIRST)]
    open(PAGE, "w", encoding="utf-8").write(head + "\n".join(out).rstrip() + "\n")


main()
