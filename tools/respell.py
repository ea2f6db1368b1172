#!/usr/bin/env python3
"""Spells the definitions and lemmas of specs/ and proofs/ as today's Rattle does: words in snake case, types and modules in camel case.

usage: tools/respell.py [--check] [FOLDER]

Run it once, after port.py, at the top of the repository. It collects the names that the crates' .antt files declare (but for those of the files in
proofs/FUNCTION/, which are labels of Rattle's), and gives each that has a dash or a capital inside a name in snake case: `countAt` becomes `count_at`,
`seek-first` `seek_first`, `BAD-LAYOUT` `BAD_LAYOUT`. A dash stays where it joins two names that stand for something by themselves (`length-words_of`). A name that a
library declares too stays, and so does one whose new spelling stands in one of its files already, or is the new spelling of another; these get a
line that begins 'stays:'. It goes by whole words, in .antt files everywhere, in .rt files outside the strings, and in the files of must-fail/.
--check writes nothing and prints the table.
"""

import collections
import os
import re
import sys

WORD = re.compile(r'[^\s(){}.;,@"«»:`\'|\[\]]+\'*')
TOKEN = re.compile(r'[^\s(){}.;,@"«»`|\[\]]+')
DECLARED = re.compile(r"(?m)^[ ]*(?:(?:pub|abbrev|unfoldable|where) )*((?:[^\s(){}.;,@\"«»:]+ )+):(?=\s)")
RECORD = re.compile(r"(?m)^[ ]*(?:(?:pub|unfoldable|abbrev) )*(record|data) (\S+)")
USE = re.compile(r"(?m)^(?:\s*)(?:pub |ghost )?use ([^\s;{]+?)(?:\.\{([^}]*)\}| as (\S+?))?;?$")
RUST = re.compile(r'"(?:\\.|[^"\\\n])*"')


def files(root):
    for folder, dirs, names in os.walk(os.path.join(root, "crates")):
        dirs[:] = sorted(d for d in dirs if d not in ("out", "target", ".git"))
        for f in sorted(names):
            if f.endswith((".antt", ".rt", ".edit")):
                yield os.path.join(folder, f)


def read(p):
    with open(p, encoding="utf-8") as f:
        return f.read()


def in_function_folder(p):
    return re.search(r"/proofs/[^/]+/", p) is not None


def snake(part):
    """One part between dashes."""
    if part.upper() == part or not re.search(r"[a-z]", part):
        return part
    if part[0].isupper():
        return part
    part = re.sub(r"(?<=[a-z0-9₀-₉])([A-Z])(?=[A-Z]*$)", lambda m: "_" + m[0].lower(), part)
    return re.sub(r"(?<=[a-z0-9])([A-Z])", lambda m: "_" + m[0].lower(), part)


def is_local(t, n, p):
    """Whether the word n of the text is more than a function of Rust or a field behind a dot."""
    if p.endswith(".rt"):
        # in clauses alone: a parameter or a binder of that name
        return any(re.search(r"(?<![\w.-])" + re.escape(n) + r"(?![\w-])", c) for c in re.findall(r"(?:requires|ensures)[^{]*\{[^{}]*(?:\{[^{}]*\}[^{}]*)*\}", t))
    t = "\n".join(l for l in t.split("\n") if not l.startswith("use ") and not l.lstrip().startswith("--"))
    return re.search(r"(?<![^\s(){}@\"«»`|\[\],;])" + re.escape(n) + r"(?![^\s(){}.;,@\"«»`|\[\]])", t) is not None


def main(argv):
    check = "--check" in argv
    argv = [a for a in argv if a != "--check"]
    root = argv[0] if argv else "."
    texts = {p: read(p) for p in files(root)}
    lib, declared, kinds = set(), set(), set()
    for p, t in texts.items():
        if p.endswith(".edit"):
            continue
        for m in USE.finditer(t):
            if not re.match(r"Rattle\.(?!std\b|core\b)", m[1]):
                for it in (m[2] or "").split(","):
                    it = it.strip().split(" as ")[0]
                    if it:
                        lib.add(it)
        if p.endswith(".antt") and not in_function_folder(p):
            body = "\n".join(l for l in t.split("\n") if not l.startswith("use ") and not l.lstrip().startswith("--"))
            for m in DECLARED.finditer(body):
                declared.update(m[1].split())
            for m in RECORD.finditer(body):
                kinds.add(m[2])
    # words that stand for something by themselves: what is declared without a dash, and a library's words without one
    names = {w for w in declared | lib | kinds if "-" not in w}
    words = {p: set(TOKEN.findall(t)) for p, t in texts.items() if not p.endswith(".edit")}
    where = collections.defaultdict(set)
    for p, ws in words.items():
        for w in ws:
            where[w].add(p)
    bare = {w for w in names if len(w) > 2}

    def respelled(name):
        parts = name.split("-")
        new = [snake(x) for x in parts]
        out = new[0]
        for i in range(1, len(parts)):
            keep = i == 1 and parts[0] in DEFS and "-".join(parts[1:]) in DEFS
            out += ("-" if keep else "_") + new[i]
        return out

    # definitions proper: functions with equations that are not lemmas are what others cite below a lemma's left side
    DEFS = set()
    for p, t in texts.items():
        if p.endswith(".antt") and "/specs/" in p:
            for m in re.finditer(r"(?m)^[ ]*(?:abbrev pub|unfoldable pub|abbrev|unfoldable) (\S+) :", t):
                DEFS.add(m[1])
    DEFS |= {"length", "take", "drop", "map", "sets", "slice", "get_or", "set", "replicate", "append"}
    table, stays = {}, {}
    olds = sorted(w for w in declared if re.search(r"[A-Za-z]", w) and w not in lib and re.search(r"-|(?<=[a-z0-9])[A-Z]", w) and w[0] not in "-_" and re.match(r"[\w-]+'*$", w.replace("?", "")))
    goal = {w: respelled(w) for w in olds}
    groups = collections.defaultdict(list)
    for w, n in goal.items():
        if n != w:
            groups[n].append(w)
    for n, ws in groups.items():
        # a definition is spelled with a capital inside, a lemma with a dash; the definition has the plain name, and a lemma that would have it gets `_lem`
        ws.sort(key=lambda w: ("-" in w, w))
        free = n not in lib
        if n in declared and "-" not in ws[0] and n not in kinds and free and n not in DEFS:
            table[n] = n + "_lem"
        elif n in declared:
            free = False
        for i, w in enumerate(ws):
            if i == 0 and free:
                table[w] = n
            elif "-" in w:
                table[w] = n + "_lem"
            else:
                table[w] = n + "_of"
    # two helpers of examples have the plain name already, and one Rust function
    table.update({"function_of": "function_with", "functionOf": "function_of", "record_of": "record_with", "recordOf": "record_of", "isName": "is_name_word"})
    table.pop("is_name", None)
    for w, n in list(table.items()):
        if n in goal.values() and goal.get(w) != n or n in lib or n in declared and n not in table:
            stays[w] = (n, "another has it")
        else:
            both = {p for p in where[n] & where[w] if n not in table and is_local(texts[p], n, p)}
            if both:
                stays[w] = (n, "stands in " + " ".join(sorted(os.path.relpath(p, root) for p in both)))
    for w, (n, why) in sorted(stays.items()):
        print(f"stays: {w} (not {n}: {why})")
        del table[w]
    print(f"respelled: {len(table)}, stay: {len(stays)}")
    if check:
        for w, n in sorted(table.items()):
            print(f"{w}\t{n}")
        return 0
    pattern = re.compile(r'(?<![^\s(){}.;,@"«»`|\[\]])(' + "|".join(re.escape(w) for w in sorted(table, key=len, reverse=True)) + r')(?![^\s(){}.;,@"«»`|\[\]])')

    def turn(t):
        return pattern.sub(lambda m: table[m[1]], t)

    for p, t in texts.items():
        if p.endswith(".rt"):
            parts, last, out = list(RUST.finditer(t)), 0, []
            for m in parts:
                out += [turn(t[last : m.start()]), m[0]]
                last = m.end()
            new = "".join(out) + turn(t[last:])
        else:
            new = turn(t)
        if new != t:
            with open(p, "w", encoding="utf-8") as f:
                f.write(new)
    with open(os.path.join(root, "tools", "respelled.tsv"), "w", encoding="utf-8") as f:
        f.writelines(f"{w}\t{n}\n" for w, n in sorted(table.items()))
    return 0


if __name__ == "__main__":
    raise SystemExit(main(sys.argv[1:]))
