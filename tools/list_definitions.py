#!/usr/bin/env python3
"""Lists the definitions that each exported contract, and the statement of demand 3, is made of: what a reader has to believe, by file, name and lines.

    tools/list_definitions.py           writes the list into docs/PROOFS.md, between its two marks
    tools/list_definitions.py --check   only says whether the list there is the one that it would write

A definition is a function, a record or a data type of a file of definitions; what it names, directly or through others, is believed with it. A name that stands for an
argument is told from a definition by its place alone, so that the list may have a name too many; it never has one too few."""
import glob
import os
import re
import sys

PAGE = "docs/PROOFS.md"
MARKS = "<!-- definitions: begin -->", "<!-- definitions: end -->"
CONTRACTS = [
    ("`wuldgisp_intake`", [("model", "Image", "IntakeEnsures")]),
    ("`wuldgisp_order`", [("model", "Image", "OrderEnsures")]),
    ("`wuldgisp_redirect`", [("model", "Image", "RedirectEnsures")]),
    ("`wuldgisp_link`, `wuldgisp_link_in`", [("model", "Image", "LinkEnsures"), ("model", "Image", "ScratchLengths")]),
    ("`wuldgisp_session`, `wuldgisp_session_in`", [("model", "Image", "SessionEnsures"), ("model", "Image", "ScratchLengths")]),
    ("demand 3 of `wuldgisp_link` (`demand3_code`)", [("link", "Theorems", "Demand3Code")]),
    ("the steps of `wuldgisp_session` (`session_means`)", [("wuldgisp", "Meaning", "SessionMeans")]),
    ("refusal 22 (`function_22`, `handle_22`, `finish_22`)", [("theory_sessions", "Stuck", "OneLeads")]),
]
DECLARED = re.compile(r"^( *)(abbrev |unfoldable )?(pub )?(?:(data|record) )?([^\s:(){}]+)(?: [^:]*| *)? : ")
TOKEN = re.compile(r"[^\s(){}\[\];,λ]+")


def path(crate, name):
    """Where a file of a crate stands, if it has one of that name."""
    return next((place for place in (f"crates/{crate}/{folder}/{name}.antt" for folder in ("specs", "proofs")) if os.path.exists(place)), None)


class File:
    """The definitions of a file, with their lines and what they name."""

    def __init__(self, crate, name):
        self.crate, self.name = crate, name
        self.path = path(crate, name)
        self.uses, self.modules, self.owner, self.text = {}, {}, {}, {}
        lines = open(self.path, encoding="utf-8").read().split("\n")
        now, mutual = None, None
        for number, line in enumerate(lines, 1):
            indent = len(line) - len(line.lstrip())
            if line.startswith(("use ", "pub use ")):
                self.use(line)
                continue
            if not line.strip():
                now = None
                continue
            if line.lstrip().startswith("--"):
                continue
            if mutual is not None and indent <= mutual:
                mutual = None
            if re.match(r"^ *(module _|infix|unfolding|mutual)", line):
                continue
            if line.lstrip().startswith("unfoldable mutual"):
                mutual = indent
                continue
            found = DECLARED.match(line)
            # the clauses of a definition begin with its name
            if found and not (now and (indent > now[1] or line.split()[0] == now[0])):
                _, prefix, pub, kind, name = found.groups()
                # a theorem is proved, and an abbreviation inside a module is that module's
                believed = kind or mutual is not None or (prefix and (pub or indent == 0))
                now = (name, indent, kind) if believed else None
                if believed:
                    self.text.setdefault(name, [number, number, []])
                    self.owner[name] = name
            elif now and now[2] and indent > now[1]:
                part = re.match(r"^ *(?:pub )?((?:[^\s:(){}]+ )+):", line)
                for name in part.group(1).split() if part else []:
                    self.owner.setdefault(name, now[0])
            if now:
                entry = self.text[now[0]]
                entry[1] = number
                entry[2].append(line.split(" -- ")[0])

    def use(self, line):
        module, _, names = line.replace("pub use ", "use ")[4:].partition(".{")
        parts = re.match(r"Rattle\.(\w+)\.(?:specs|proofs)\.(\w+)(?: as (\w+))?$", module.strip())
        if not parts:
            return
        crate, file, alias = parts.groups()
        if alias:
            self.modules[alias] = (crate, file)
        for item in names.rstrip("}").split(", ") if names else []:
            name, _, new = item.partition(" as ")
            self.uses[new or name] = (crate, file, name)


FILES = {}


def file(crate, name):
    if (crate, name) not in FILES:
        FILES[crate, name] = File(crate, name)
    return FILES[crate, name]


def resolve(here, token):
    """The definition that a word names, if it names one; an operator is declared with its places, as ◌▸◌, and a field follows a dot, as in m.names."""
    if token not in here.uses and token not in here.owner and f"◌{token}◌" in {*here.uses, *here.owner}:
        token = f"◌{token}◌"
    first, _, rest = token.partition(".")
    if token in here.uses:
        crate, name, word = here.uses[token]
    elif token in here.owner:
        crate, name, word = here.crate, here.name, token
    elif rest and first in here.modules:
        (crate, name), word = here.modules[first], rest.split(".")[0]
    elif rest and first:
        return resolve(here, first)
    else:
        return None
    if not path(crate, name):
        return None
    there = file(crate, name)
    if word in there.owner:
        return crate, name, there.owner[word]
    return resolve(there, word) if there is not here else None


def closure(roots):
    found, todo = set(), list(roots)
    while todo:
        one = todo.pop()
        if one in found:
            continue
        found.add(one)
        here = file(*one[:2])
        for line in here.text[one[2]][2]:
            for token in TOKEN.findall(line):
                # a field is of a record that is named elsewhere
                if token.startswith("."):
                    continue
                named = resolve(here, token)
                if named and named not in found:
                    todo.append(named)
    return found


def listed(names):
    """File by file, in the order of reading, each name with its lines."""
    order = [line.split()[2] for line in open("crates/model/specs/Lib.antt") if line.startswith("pub mod")]
    by_file = {}
    for crate, name, word in names:
        by_file.setdefault((crate, name), []).append((*file(crate, name).text[word][:2], word))
    rows = sorted(by_file.items(), key=lambda row: (row[0][0] != "base_words", row[0][0] != "model", row[0][0], order.index(row[0][1]) if row[0][0] == "model" else 0, row[0][1]))
    return [f"| `{path(crate, name).removeprefix('crates/')}` | " + ", ".join(f"`{word}` {a}" + (f"–{b}" if b > a else "") for a, b, word in sorted(words)) + f" | {sum(b - a + 1 for a, b, _ in words)} |" for (crate, name), words in rows]


def page():
    done, out = {}, []
    for title, roots in CONTRACTS:
        names = closure(roots)
        # the contracts before it of which it needs all but what Image.antt says of the function itself
        inner = {other: {name for name in theirs if name[:2] != ("model", "Image")} for other, theirs in done.items()}
        bases = [other for other in done if inner[other] <= names]
        bases = [b for b in bases if not any(inner[b] < inner[c] for c in bases)]
        rest = names - set().union(*(done[b] for b in bases)) if bases else names
        done[title] = names
        size = sum(file(c, f).text[w][1] - file(c, f).text[w][0] + 1 for c, f, w in names)
        out += [f"**{title}**: {len(names)} definitions, {size} lines" + (": what " + " and ".join(bases) + " has, and:" if bases else ":"), "", "| file | definitions, with their lines | lines |", "|---|---|---|", *listed(rest), ""]
    return "\n".join(out)


def main():
    os.chdir(os.path.dirname(os.path.dirname(os.path.abspath(__file__))))
    text = open(PAGE, encoding="utf-8").read()
    before, _, rest = text.partition(MARKS[0])
    _, _, after = rest.partition(MARKS[1])
    new = before + MARKS[0] + "\n\n" + page() + "\n" + MARKS[1] + after
    if "--check" in sys.argv[1:]:
        if new != text:
            sys.exit(f"{PAGE}: the list of definitions is not that of the files; tools/list_definitions.py writes it")
    else:
        open(PAGE, "w", encoding="utf-8").write(new)


main()
