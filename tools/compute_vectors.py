#!/usr/bin/env python3
"""Writes the theorems of the crate model_vectors: the model's link and run of steps on vectors, each computed and compared by refl; and what the crate
wuldgisp_refuted computes of images.

    tools/compute_vectors.py           writes Links.antt and Sessions.antt for the vectors named below, Small.antt and Marked.antt to
                                       crates/model_vectors/specs, and Answers.antt to crates/wuldgisp_refuted/specs
    tools/compute_vectors.py --check   only says whether the files there are those that it would write

A handful is in the gate, since a vector takes a second or more; others are tried by naming them here."""
import os
import re
import struct
import sys

LINKS = ["002", "003", "006", "008", "013"]
# those that other files name
NAMED = {"P5": "000", "P6": "001", "P11": "004"}
SESSIONS = ["s001", "s008", "s104", "s106"]
# the files of the model whose definitions have to be unfolded
MODEL = ["Outcome", "Table", "Tree", "Module", "Carry", "Operands", "Lower", "Names", "Initial", "Numbers", "Scope", "Intake", "Calls", "Callees", "Redirect",
         "Tables", "References", "Imports", "Bodies", "Special", "Finish", "Session", "Link", "Steps"]
# and those that neither links nor runs steps
INTAKE = MODEL[: MODEL.index("Redirect") + 1]


# a name of two parts has a dash between them where each names something by itself, as elsewhere in the crates
WORDS = {"P5", "P6", "P8", "P11", "p5", "p6", "p8", "p10", "p11", "twice", "linked", "rings", "called", "passed", "emitted", "later", "moved", "two", "special", "constant", "named", "nested",
         "known", "initial", "types", "steps", "ordered", "told"}


def spelled(name):
    """A name whose parts are written apart by dashes, as the crates spell it."""
    return name if set(name.split("-", 1)) <= WORDS else name.replace("-", "_")


def unfoldables(name):
    """The names that a file declares as unfoldable, those of mutual blocks among them."""
    out, inside, indent = [], False, 0
    for line in open(f"crates/model/specs/{name}.antt").read().split("\n"):
        if m := re.match(r"^(\s*)unfoldable pub (\S+) :", line):
            out.append(m.group(2))
            inside = False
        elif m := re.match(r"^(\s*)unfoldable mutual", line):
            inside, indent = True, len(m.group(1))
        elif inside and line.strip():
            if len(line) - len(line.lstrip()) <= indent and not line.lstrip().startswith("--"):
                inside = False
            elif m := re.match(r"^\s*pub (\S+) :", line):
                out.append(m.group(1))
    return out


def words(data):
    return list(struct.unpack(f"<{len(data) // 4}I", data[: len(data) // 4 * 4]))


def listed(numbers):
    return "(" + " ∷ ".join(map(str, numbers)) + " ∷ [])" if numbers else "[]"


def defined(name, numbers):
    """A list of numbers under a name."""
    name = spelled(name)
    return [f"unfoldable pub {name} : List ℕ", f"{name} = {listed(numbers)[1:-1]}", ""]


def imports(files):
    """Use lines under names that do not meet, and what to unfold."""
    uses, names = [], []
    for file in files:
        items = []
        for name in unfoldables(file):
            plain = re.match(r"^[A-Za-z]", name)
            names.append(f"{file}-{name}" if plain else name)
            items.append(f"{name} as {file}-{name}" if plain else name)
        uses.append(f"use Rattle.model.specs.{file}.{{{', '.join(items)}}}")
    return uses, "unfolding word_of words_of " + " ".join(names)


def prelude(text):
    """The use line of the library's words that stand in these lines."""
    operators = {"◌≡◌": "≡", "◌∷◌": "∷", "◌+◌": "+", "◌*◌": "*"}
    found = {word for line in text if not line.startswith(("use ", "--")) for word in re.findall(r"\[\]|[^\s(){}\[\],;.]+", line)}
    names = [name for name in ("◌≡◌", "refl", "List", "[]", "◌∷◌", "ℕ", "replicate", "get_or", "◌+◌", "◌*◌", "length") if operators.get(name, name) in found]
    return f"use Rattle.std.specs.Prelude.{{{', '.join(names)}}}"


def bytes_of(name):
    return open(f"vectors/{name}", "rb").read()


def changed(image, at, byte):
    return image[:at] + bytes([byte]) + image[at + 1 :]


def p8():
    """P6, with the callee in fog's call changed from tone to shade."""
    return changed(bytes_of("001.img"), 284, 0)


def image_of(names=(), types=(), constants=(), expressions=(), functions=(), ray=0, pairs=()):
    """An image as words: of names as text, of records as words, of the first of the three optional special types, and of pairs of a key and a type."""
    texts = [[len(name), *words(name.encode().ljust((len(name) + 3) // 4 * 4, b"\0"))] for name in names]
    head, body = [], []
    for records in (texts, types, constants, [], [], expressions, functions, []):
        head += [len(records), 20 + len(body)]
        body += [len(records) + sum(map(len, records[:i])) for i in range(len(records))] + sum(records, [])
    head += [len(pairs), 20 + len(body)]
    body += [ray, 0, 0, *sum(map(list, pairs), [])]
    return [1, 20 + len(body), *head, *body]


def links(unfolding):
    """Link on an image, into an output as long as the image."""
    expected = {line.split("\t")[0]: line.split("\t")[1:] for line in open("vectors/expected.tsv").read().strip().split("\n")}
    text = ["use Rattle.model.specs.Refusals.{done, refused, ringed}", "", "-- ---- marked cases by name"]
    for name, number in NAMED.items():
        image, linked = (words(bytes_of(f"{number}.{end}")) for end in ("img", "linked"))
        text += [*defined(name, image), *defined(f"{name}-linked", linked), f"pub {name.lower()}_links : Link-link {4 * len(image)} {name} {4 * len(image)} ≡ done {name}-linked",
                 f"{unfolding} {name} {name}-linked", f"{name.lower()}_links = refl", ""]
    image = words(p8())
    text += [*defined("P8", image), f"pub p8-rings : Link-link {4 * len(image)} P8 {4 * len(image)} ≡ ringed 2", f"{unfolding} P8", "p8-rings = refl", "", "-- ---- vectors by number"]
    for name in LINKS:
        image = bytes_of(f"{name}.img")
        if os.path.exists(f"vectors/{name}.linked"):
            answer = "done " + listed(words(bytes_of(f"{name}.linked")))
        elif expected[name][0] != "ok":
            answer = "refused " + expected[name][0].split()[1]
        else:
            answer = "ringed " + expected[name][1].split()[3]
        text += [f"pub v{name} : Link-link {len(image)} {listed(words(image))} {len(image)} ≡ {answer}", unfolding, f"v{name} = refl", ""]
    return text


def sessions(unfolding):
    """A run of steps: the answers, and the words of the last finish that wrote."""
    text = ["use Rattle.model.specs.Steps.{Said}", "",
            "-- the words that the last step wrote that wrote any",
            "unfoldable pub last_written : List Said → List ℕ → List ℕ", "last_written [] v = v",
            "last_written (x ∷ xs) v = elim x.written [ [] ↦ last_written xs v | w ∷ ws ↦ last_written xs (w ∷ ws) ]", ""]
    for name in SESSIONS:
        lines = bytes_of(f"{name}.steps").decode().strip().split("\n")
        room = int(re.search(r"output of (\d+)", lines[0]).group(1))
        rows = [[[int(w) for w in half.split()] for half in line.split("#")[0].split("=")] for line in lines[1:]]
        steps = [w for step, _ in rows for w in step]
        answers = [w for _, answer in rows for w in answer]
        finishes = [(step[1], answer[1]) for step, answer in rows if step[0] in (13, 14) and answer[0] == 0]
        start, size = finishes[-1] if finishes else (0, 0)
        output = bytes_of(f"{name}.output").ljust(start + size, b"\xa5")
        run = f"(Steps-run {listed(steps)} {listed(list(bytes_of(f'{name}.sources')))} (replicate {room} 0) Session-new)"
        text += [f"pub {name} : Steps-answers_of {run} ≡ {listed(answers)}", unfolding, f"{name} = refl", "",
                 f"pub {name}_written : last_written {run} [] ≡ {listed(words(output[start:start + size]))}", unfolding.replace("unfolding", "unfolding last_written"),
                 f"{name}_written = refl", ""]
    return text


def small():
    """Sources and derived images as words, by name; and sessions of a few steps, by name: what it shows, sources, steps, the result, answers, and the image
    written to an output of 400 bytes."""
    lists = {name: words(bytes_of(f"{number}.img")) for name, number in (("p5", "000"), ("p10", "003"), ("p11", "004"), ("nothing", "005"))}
    lists["p5-called"] = [1, 56, 2, 20, *[0, 26] * 5, 2, 26, 0, 53, 0, 53, 2, 4, 1, 98, 1, 97, 2, 11, 1, *[0] * 8, 2, *[0] * 7, 1, 7, 15, *[0] * 8]
    lists["p10-passed"] = [1, 72, 1, 20, *[0, 23] * 5, 1, 23, 0, 69, 0, 69, 1, 1, 102, 1, 1, *[0] * 5, 5, 0, 0, 0, 3, 10, *[0] * 4, 3, 11, *[0] * 4, 3, 12, 0, 17,
                           *[0] * 4, 1, 17, 0, 0, 0, 3, 2, 0, 1, 6, 0, 0, 0, 3, 5, 0, 0, 0]
    lists["p11-emitted"] = [*lists["p11"][:65], 2, *lists["p11"][66:]]
    # a function f with a literal that nothing reads, named x
    lists["unread"] = [1, 47, 2, 20, *[0, 26] * 5, 1, 26, 0, 44, 0, 44, 2, 4, 1, 102, 1, 120, 1, 1, *[0] * 5, 1, 0, 0, 0, 3, 1, 0, 1, 0, 2, *[0] * 4]
    lists["unread-dropped"] = [1, 36, 1, 20, *[0, 23] * 5, 1, 23, 0, 33, 0, 33, 1, 1, 102, 1, 1, *[0] * 11]
    # a type; and the same with another span, and a second
    one = [1, 35, 0, 20, 1, 20, *[0, 32] * 7, 1, 0, 1, 2, *[0] * 11]
    two = [1, 47, 0, 20, 2, 20, *[0, 44] * 7, 2, 13, 0, 3, 4, *[0] * 12, 1, *[0] * 9]
    lists["two-sources"] = one + two
    lists["merged"] = [*two[:23], 1, 2, *two[25:]]
    literal, leaf = [0, 0, 0, 3, 7, 0], [0] * 11
    # a function f: a literal that nothing reads, another, and an Emit of its Negate; and the same without the first
    head, emit, negate = [1, *[0] * 5], [1, 6, 0, 0, 0], [16, 0, 0, 0]
    lists["later"] = image_of(names=["f"], functions=[[*head, 3, *literal, *literal, *negate, 1, 0, *emit, 2, 3]])
    lists["later-moved"] = image_of(names=["f"], functions=[[*head, 2, *literal, *negate, 0, 0, *emit, 1, 2]])
    # a function f with two locals: the first starts as a Splat of a literal, named x, the second as its Negate; the body is empty
    lists["initialised"] = image_of(names=["f", "x"], types=[leaf], functions=[[1, 0, 0, 0, 0, 2, *[0] * 4, 2, *[0] * 4, 3, 3, *literal, 7, 0, 0, 0, 0, *negate, 0, 1, 1, 2, 0]])
    # a global expression that names a constant, whose value is a literal
    lists["constant"] = image_of(types=[leaf], constants=[[0] * 5], expressions=[literal, [1, 0, 0, 0]])
    # a source whose only type is special, by its place and for the key 7; and one with other types there, of which the second has the place
    lists["special"] = image_of(types=[leaf], ray=1, pairs=[(7, 0)])
    lists["two-special"] = lists["special"] + image_of(types=[[0, 0, 0, 0, kind, *[0] * 6] for kind in (1, 2)], ray=2, pairs=[(7, 0)])
    function, finish = [9, 0, 0, 0], [13, 0, 400, 0]
    return lists, {
        "nested": ("P5, of which a is imported, and b, which it calls, first", "p5", [0, 0, 276, 0, *function, *finish], 0, [0, 0, 0, 0, 1, 0, 0, 224, 0], "p5-called"),
        "refused": ("the same, and a function 7 where no source is set, and a function 3 of P5", "p5", [9, 7, 0, 0, 0, 0, 276, 0, 9, 3, 0, 0, *function, *finish], 20,
                    [20, 0, 0, 0, 0, 0, 13, 0, 0, 0, 1, 0, 0, 224, 0], "p5-called"),
        "known": ("P5, of which b is imported, and then a, which calls it", "p5", [0, 0, 276, 0, 9, 1, 0, 0, *function, *finish], 0, [0, 0, 0, 0, 0, 0, 0, 1, 0, 0, 224, 0],
                  "p5-called"),
        "ended": ("P5, finished with its entry points, of which it has none; and then an import", "p5", [0, 0, 276, 0, 14, 0, 400, 0, *function], 20 + 2 * 2**32,
                  [0, 0, 0, 0, 92, 0, 20, 0, 0], "nothing"),
        "passed": ("P10, with an offset: all its spans are undefined", "p10", [0, 0, 336, 10, *function, *finish], 0, [0, 0, 0, 0, 0, 0, 0, 288, 0], "p10-passed"),
        "emitted": ("P11", "p11", [0, 0, 280, 0, *function, *finish], 0, [0, 0, 0, 0, 0, 0, 0, 280, 0], "p11-emitted"),
        "dropped": ("a function f with a literal that nothing reads, named x", "unread", [0, 0, 188, 0, *function, *finish], 0, [0, 0, 0, 0, 0, 0, 0, 144, 0], "unread-dropped"),
        "emitted-later": ("a function f with a literal that nothing reads, another, and an Emit of its Negate", "later", [0, 0, 236, 0, *function, *finish], 0,
                          [0, 0, 0, 0, 0, 0, 0, 212, 0], "later-moved"),
        "initial": ("a function f with two locals and their initialisers, one of them named x", "initialised", [0, 0, 316, 0, *function, *finish], 0,
                    [0, 0, 0, 0, 0, 0, 0, 316, 0], "initialised"),
        "constant-named": ("a global expression that names a constant", "constant", [0, 0, 212, 0, 8, 1, 0, 0, *finish], 0, [0, 0, 0, 0, 1, 0, 0, 212, 0], "constant"),
        "shared": ("two sources with special types in one place and for one key; and after a finish, whether types are required", "two-special",
                   [0, 0, 148, 0, 0, 148, 196, 0, 3, 0, 0, 0, 3, 1, 0, 0, *finish, 12, 0, 0, 0], 0, [*[0] * 12, 0, 148, 0, 0, 0, 0], "special"),
        "spans": ("P1 and P2, and by another offset P3 and P4", "nothing", [0, 0, 92, 10, 2, 0, 0, 0, 2, 0, 4, 0, 0, 0, 92, 4294967290, 2, 5, 9, 0, 2, 6, 6, 0], 0,
                  [0, 0, 0, 0, 0, 0, 0, 10, 14, 0, 0, 0, 0, 4294967295, 3, 0, 0, 0], None),
        "types": ("a type of one source; of another the same with another span, and a second", "two-sources",
                  [0, 0, 140, 0, 3, 0, 0, 0, 0, 140, 188, 0, 3, 0, 0, 0, 3, 1, 0, 0, *finish], 0, [0, 0, 0, 0, 0, 0, 0, 0, 0, 0, 0, 0, 0, 1, 0, 0, 188, 0], "merged"),
    }


def small_sessions(unfolding):
    """A run of steps: the result, the answers, and all that was written."""
    text = ["use Rattle.model.specs.Steps.{Said}", "",
            "-- the places and words of the steps that write",
            "unfoldable pub wrote : List Said → List (ℕ × List ℕ)", "wrote [] = []",
            "wrote (x ∷ xs) = elim x.written [ [] ↦ wrote xs | w ∷ ws ↦ (x.at, w ∷ ws) ∷ wrote xs ]", "",
            "-- what these steps answer and write with these sources, in an output of 400 bytes",
            "unfoldable pub does : List ℕ → List ℕ → ℕ × List ℕ × List (ℕ × List ℕ)",
            "does sources steps = let xs = Steps-run steps sources (replicate 400 0) Session-new in (Steps-first_refused xs 0, Steps-answers_of xs, wrote xs)", "",
            "-- ---- sources, and images derived from them, as words"]
    lists, cases = small()
    for name, numbers in lists.items():
        text += defined(name, numbers)
    for name, (shows, sources, steps, result, answers, written) in cases.items():
        text += [f"-- ---- {shows}"]
        for part, numbers in (("steps", steps), ("answers", answers)):
            text += defined(f"{name}-{part}", numbers)
        sources, written, steps, answers, name = map(spelled, (sources, written or "", f"{name}-steps", f"{name}-answers", name))
        text += [f"pub {name} : does (bytes_of {sources}) {steps} ≡ ({result}, {answers}, {f'(0, {written}) ∷ []' if written else '[]'})",
                 f"{unfolding} bytes_of wrote does {steps} {answers} {sources}{f' {written}' if written and written != sources else ''}", f"{name} = refl", ""]
    return text


def spelt(text):
    return listed(list(text.encode()))[1:-1]


def answers(unfolding):
    """What the exported functions and `order`'s text answer for marked cases."""
    on_bytes = ["on_image", "wuldgisp_intake", "order_ended", "order_image", "order_after", "wuldgisp_order", "redirect_ended", "redirect_after", "redirect_image", "wuldgisp_redirect"]
    lines = ["decimal", "name_text", "name_in", "name_of", "numbers_text", "line_text", "lines_text", "headed", "ordered_text"]
    telling = ["refusing", "telling", "telling_of"]
    text = ["use Rattle.model.specs.Refusals.{answer_by}", f"use Rattle.model.specs.Image.{{{', '.join(on_bytes)}, order_answer}}",
            f"use Rattle.order_lines.specs.Lines.{{{', '.join(lines)}}}", f"use Rattle.order_text.specs.Telling.{{{', '.join(telling)}}}", ""]
    unfolding = " ".join([unfolding, "bytes_of", "answer_by", *on_bytes])
    p6 = bytes_of("001.img")
    # of the last the number of tone's name is changed
    for name, numbers in {"p5": bytes_of("000.img"), "p6": p6, "p8": p8(), "twice": changed(p6, 196, 1)}.items():
        text += defined(name, list(numbers))
    computed = [("p6-accepted", "wuldgisp_intake p6", "0"), ("twice-refused", "wuldgisp_intake twice", "5"),
                ("p5-ordered", "(wuldgisp_order p5 (9 ∷ 9 ∷ 9 ∷ [])).1", "1 ∷ 2 ∷ 0 ∷ []"), ("p8-left", "order_answer (order_image p8)", str(12 + 2 * 2**32)),
                # byte 184 is the callee in shade's call, which is of fog at first
                ("p6-called", "get_or p6 184 0", "2"), ("p6-redirected", "get_or (wuldgisp_redirect p6 2 1 []).1 184 0", "1"),
                ("p6-answered", "(wuldgisp_redirect p6 2 1 []).0", str((2 + 65536) * 2**32)),
                ("p6-told", "(telling_of p6).text", spelt("functions 3\n0 1 tone\n1 2 fog\n2 0 shade\n")), ("p8-told", "(telling_of p8).text", spelt("refused 12 left 2\n")),
                ("twice-told", "(telling_of twice).text", spelt("refused 5\n"))]
    for name, term, value in computed:
        told = " ".join(["", *lines, *telling]) if name.endswith("told") else ""
        about, name = name.split("-")[0], spelled(name)
        text += [f"pub {name} : {term} ≡ {value}", f"{unfolding}{told} {about}", f"{name} = refl", ""]
    return text


def marked(unfolding):
    """The marked cases P5 to P9 and P12 of the exported link and redirect, on images."""
    on_bytes = ["on_image", "redirect_ended", "redirect_after", "redirect_image", "wuldgisp_redirect", "wuldgisp_link"]
    t, f, s = "letter 116", "letter 102", "letter 115"
    cases = [
        ('"P5 a calls b; b; c: b, c, a"', "p5", "linked P5", f"gives P5 (having ({t} ∷ {f} ∷ {s} ∷ []) (plain 0 end ∷ plain 1 end ∷ plain 2 (to 0) ∷ []))"),
        ('"P6 shade calls fog; tone; fog calls tone: tone, fog, shade"', "p6", "linked P6", f"gives P6 (having ({t} ∷ {f} ∷ {s} ∷ []) (plain 0 end ∷ plain 1 (to 0) ∷ plain 2 (to 1) ∷ []))"),
        ('"P7 P6 with fog replaced by tone: tone, shade, fog"', "p7", "wuldgisp_redirect (image P6) 2 1 []", "(packed 0 (2 + 65536 * 1), image P7)"),
        (None, "p7_linked", "linked P7", f"gives P7 (having ({t} ∷ {s} ∷ {f} ∷ []) (plain 0 end ∷ plain 1 (to 0) ∷ plain 2 (to 0) ∷ []))"),
        ('"P8 P6 with tone replaced by shade: 12, left 2"', "p8", "wuldgisp_redirect (image P6) 1 0 []", "(packed 0 (1 + 65536 * 0), image P8)"),
        (None, "p8-linked", "linked P8", "rings P8 2"),
        ('"P9 one self-caller: 12, left 1"', "p9", "linked P9", "rings P9 1"),
        ('"P12 no functions: succeeds"', "p12", "linked P12", "gives P12 (having [] [])"),
    ]
    text = ["use Rattle.std.proofs.lemmas.List.Edits.{sets}", "use Rattle.model.specs.Refusals.{packed, answer_by}", "use Rattle.model.specs.Outcome.{Cells}", "use Rattle.model.specs.Tree.{end, Function}",
            "use Rattle.model.specs.Module.{Module}", "use Rattle.model.specs.RedirectExamples.{to, plain, letter, holding, P6}", f"use Rattle.model.specs.Image.{{{', '.join(on_bytes)}}}", "",
            "-- P6 has the names shade, tone and fog, which are 0, 1 and 2, by their first letters, and one that no function has; so have the others", "abbrev P5 : Module", "P5 = holding (plain 0 (to 1) ∷ plain 1 end ∷ plain 2 end ∷ []) []", "",
            "abbrev P7 : Module", "P7 = holding (plain 0 (to 1) ∷ plain 1 end ∷ plain 2 (to 1) ∷ []) []", "",
            "abbrev P8 : Module", "P8 = holding (plain 0 (to 2) ∷ plain 1 end ∷ plain 2 (to 0) ∷ []) []", "",
            "abbrev pub P9 : Module", "P9 = holding (plain 0 (to 0) ∷ []) []", "", "abbrev pub P12 : Module", "P12 = holding [] []", "",
            "-- with these names, and these functions", "abbrev having : List Cells → List Function → Module",
            "having ns fs = record { names = ns; types = []; constants = []; overrides = []; globals = []; exprs = []; functions = fs; entries = []; special = (holding [] []).special }", "",
            "abbrev pub image : Module → List ℕ", "image m = bytes_of (Module-write m)", "",
            "-- the output: a byte for each of the image", "abbrev pub output : Module → List ℕ", "output m = replicate (length (image m)) 9", "",
            "-- what link answers and leaves: the linked image, its bytes counted; or 12 with the count, and the output as it was", "abbrev linked : Module → ℕ × List ℕ", "linked m = wuldgisp_link (image m) (output m)", "",
            "abbrev gives : Module → Module → ℕ × List ℕ", "gives m m' = (packed 0 (length (image m')), sets (output m) 0 (image m'))", "",
            "abbrev rings : Module → ℕ → ℕ × List ℕ", "rings m left = (packed 12 left, output m)", "", "pub record Marked : Type 0 where"]
    for note, name, left, right in cases:
        text += [f"  -- {note}"] * (note is not None) + [f"  pub {name} : {left} ≡ {right}"]
    fields = "; ".join(f"{name} = refl" for _, name, _, _ in cases)
    return [*text, "", "pub marked : Marked", " ".join([unfolding, "bytes_of", "answer_by", *on_bytes]), f"marked = record {{ {fields} }}", ""]


def page(title, uses, body):
    """A file: its title, what it uses of the library, of these two crates and of others, and the rest."""
    words = [word for word in ("word_of", "words_of", "bytes_of") if any(word in line for line in body)]
    return "\n".join([f"-- {title} Written by tools/compute_vectors.py.", prelude(body), f"use Rattle.base_words.specs.Words.{{{', '.join(words)}}}", *uses, *body])


def pages():
    """The files' texts, each by its path."""
    uses, unfolding = imports(MODEL)
    vectors, refuted = "crates/model_vectors/specs", "crates/wuldgisp_refuted/specs"
    return {
        f"{vectors}/Links.antt": page("Linking computed on vectors: the answer, or the linked image.", uses, links(unfolding)),
        f"{vectors}/Sessions.antt": page("Sessions computed on vectors: the answers of all steps, and what was written last.", uses, sessions(unfolding)),
        f"{vectors}/Small.antt": page("Sessions of a few steps computed: the answers of all steps, and what was written.", uses, small_sessions(unfolding)),
        f"{vectors}/Marked.antt": page("THE MARKED CASES P5 TO P9 AND P12 ON IMAGES: what the exported link and redirect answer and leave. One table, one theorem; "
                                       "Marked.antt of the crate model has all marked cases, on modules.", uses, marked(unfolding)),
        f"{refuted}/Answers.antt": page("What the exported functions and the text of `order` answer for document 01's marked cases P5, P6 and P8, and for P6 with two functions of one name.",
                                        imports(INTAKE)[0], answers(imports(INTAKE)[1])),
    }


def main():
    os.chdir(os.path.dirname(os.path.dirname(os.path.abspath(__file__))))
    check = sys.argv[1:] == ["--check"]
    if sys.argv[1:] and not check:
        sys.exit(__doc__)
    for path, text in pages().items():
        if not check:
            with open(path, "w", encoding="utf-8") as out:
                out.write(text)
        elif open(path, encoding="utf-8").read() != text:
            sys.exit(f"{path} is not what tools/compute_vectors.py writes")


main()
