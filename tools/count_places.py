#!/usr/bin/env python3
# Counts the places that docs/DESIGN-PASS.md speaks of, in the sources of all crates. With --list it names each.
#   count_places.py [--list] [POINT ..]
import glob
import re
import sys

WANTED = [a for a in sys.argv[1:] if a != "--list"]
LIST = "--list" in sys.argv


def sources():
    for path in sorted(glob.glob("crates/*/src/*.rt")):
        text = open(path, encoding="utf-8").read()
        yield path, text


def matches(pattern):
    """Each match of a pattern in the sources, with its file and line."""
    for path, text in sources():
        for m in re.finditer(pattern, text, re.M | re.S):
            yield m, "%s:%d " % (path, text.count("\n", 0, m.start()) + 1)


def functions():
    """Each function: its file, its line, its name, its comment, its parameters, its result, its clauses, its body."""
    for path, text in sources():
        for m in re.finditer(r"^( *)(?:pub )?(?:extern \"C\" )?fn (\w+)(?:<[^>]*>)?\(", text, re.M):
            depth, i = 1, m.end()
            while depth:
                depth += {"(": 1, ")": -1}.get(text[i], 0)
                i += 1
            head = text[m.end() : i - 1]
            head_end = text.index("\n", i)
            if text[i:head_end].rstrip().endswith("{"):
                at = text.index("{", i)
            else:
                at = re.compile(r"^%s\{$" % m.group(1), re.M).search(text, i).start()
            end = re.compile(r"^%s\}$" % m.group(1), re.M).search(text, at)
            above = text[: m.start()].rstrip("\n").split("\n")
            comment = []
            while above and above[-1].strip().startswith(("//", "#[")):
                comment.insert(0, above.pop().strip())
            result = re.match(r"\s*->\s*([^\n{]+)", text[i:at])
            yield dict(
                path=path,
                line=text.count("\n", 0, m.start()) + 1,
                name=m.group(2),
                comment=" ".join(comment),
                params=[p.strip() for p in split(head) if p.strip()],
                result=result.group(1).strip() if result else "",
                clauses=re.findall(r"(?:requires|ensures)[^{]*\{(.*)\}\s*$", text[i:at], re.M),
                body=text[at : end.start() if end else len(text)],
            )


def split(head):
    out, depth, last = [], 0, 0
    for i, c in enumerate(head):
        if c in "([{<":
            depth += 1
        elif c in ")]}>":
            depth -= 1
        elif c == "," and depth == 0:
            out.append(head[last:i])
            last = i + 1
    return out + [head[last:]]


def where(f):
    return "%s:%d %s" % (f["path"], f["line"], f["name"])


def enums():
    # enums whose variants are an answer, and reasons why there is none
    for m, at in matches(r"^(?:pub )?enum (\w+) \{\n(.*?)^\}"):
        yield at + "%s {%s}" % (m.group(1), ", ".join(re.findall(r"^    (\w+)", m.group(2), re.M)))


def flags():
    # fields and parameters that say whether the others mean anything
    for m, at in matches(r"^ +(?:pub )?(full|refusal|set): (?:bool|u32),"):
        yield at + m.group(1)


def sentinels():
    # results in which a number, or a place past the last, stands for none
    for f in functions():
        if re.match(r"(usize|u8|u16|u32|u64)$", f["result"]) and re.search(
            r"\bor 0\b|0 for n|0: |plus 1|0 where|\bor n\b|or how many|or `end`|; k where|number before|is mapped to|or refusal|low half|out of scope|first `count`|is a name|the first bad|that is none|as a number|A decimal|one more digit|first candidate|known\b",
            f["comment"],
        ):
            yield where(f) + " -> " + f["result"]


def codes():
    # numbers for kinds, refusals, sections and steps
    for m, at in matches(r"^(?:pub )?const ([A-Z_0-9]+): (?:u8|u16|u32|usize) = [^;]+;"):
        yield at + m.group(1)


def loops():
    for m, at in matches(r"^ *(while [^\n]*|loop) \{"):
        yield at + m.group(1)


def casts():
    # helpers that only cast, take one off or choose the less of two
    for f in functions():
        body = [l.strip() for l in f["body"].split("\n")[1:] if l.strip()]
        one = len(body) == 1 and re.match(r"\w+ as \w+$", body[0])
        off = body[-1:] == ["v - 1"] or body[-1:] == ["v[i] - 1"]
        least = f["name"] == "least"
        if one or off or least:
            yield where(f)


def cast_calls():
    for m, at in matches(r"(?<![\w.])(?<!fn )(?:base_words::)?(wide|slot|place|shown|far|short|narrow|byte|mapped|class_word)\(\w"):
        yield at + m.group(1)


def ladders():
    # functions to bool that are ladders of `if .. { return true/false; }`
    for f in functions():
        if f["result"] == "bool" and not re.search(r"\b(while|for|loop)\b", f["body"]) and len(re.findall(r"return (?:true|false);", f["body"])) >= 1:
            yield where(f)


def groups():
    # parameters that travel together
    for f in functions():
        names = [p.split(":")[0].replace("mut ", "").strip() for p in f["params"]]
        got = [g for g in (("words", "tags"), ("log", "logtags"), ("starts", "maps"), ("targets",), ("table",), ("starts", "list", "until"), ("breaks", "continues", "returns"), ("set", "offset")) if all(n in names for n in g)]
        if got:
            yield where(f) + "  " + "; ".join("+".join(g) for g in got)


def long_lists():
    for f in functions():
        if len(f["params"]) > 7:
            yield where(f) + "  %d" % len(f["params"])


def facts():
    # clauses that stand in three functions or more
    seen = {}
    for f in functions():
        for c in set(f["clauses"]):
            seen.setdefault(c.strip(), []).append(where(f))
    for c, fs in sorted(seen.items(), key=lambda x: -len(x[1])):
        if len(fs) >= 3:
            yield "%3d %s" % (len(fs), c)


KEYWORDS = "let mut if else while for in loop return match true false fn pub as usize u8 u16 u32 u64 bool".split()


def shape(text):
    # the words of a text, names and numbers apart
    seen, out = {}, []
    for w in re.findall(r"[A-Za-z_]\w*|\d+|[^\s\w]", re.sub(r"//[^\n]*", "", text)):
        if w in ",;":
            continue
        if re.match(r"[A-Za-z_]", w) and w not in KEYWORDS:
            w = "n%d" % seen.setdefault(w, len(seen))
        elif w.isdigit():
            w = "0"
        out.append(w)
    return tuple(out)


def twins():
    # functions whose bodies differ only in names and numbers, and are more than a line
    groups = {}
    for f in functions():
        words = shape(f["body"])
        if len(words) > 24:
            groups.setdefault(words, []).append(where(f))
    for g in groups.values():
        if len(g) > 1:
            for place in g:
                yield place + "  (one of %d)" % len(g)


def switches():
    # ladders on a number that says which step to run
    for f in functions():
        n = len(re.findall(r"if (?:t|k|s|u|r\.table|step\.operation|tags\[\w+\]) (?:==|<) [A-Z_]+ \{", f["body"]))
        if n >= 3:
            yield where(f) + "  %d" % n


POINTS = [
    ("1 enums", enums),
    ("1 flags", flags),
    ("1 sentinels", sentinels),
    ("1 codes", codes),
    ("2 twins", twins),
    ("3 loops", loops),
    ("4 casts", casts),
    ("4 cast-calls", cast_calls),
    ("4 ladders", ladders),
    ("5 groups", groups),
    ("5 long-lists", long_lists),
    ("5 facts", facts),
    ("7 switches", switches),
]

for name, find in POINTS:
    if WANTED and not any(name.startswith(a) or name.endswith(a) for a in WANTED):
        continue
    found = list(find())
    print("%-16s %d" % (name, len(found)))
    if LIST:
        for place in found:
            print("    " + place)
