#!/usr/bin/env python3
"""Where the time of a check goes.

    tools/profile_check.py CRATE

proves the crate from nothing, once what it depends on is proved (by `rt check` in its folder), and prints the seconds of each function, definition file
and lemma file, the longest first. The checker saves every module when it is done with it, so the time from one saved file to the next is that of the
second. Of a function, `Lts` is what the checker makes of its code, and `Answers` and `Proof` its proof.
"""

import collections
import pathlib
import re
import shutil
import subprocess
import sys
import tempfile


def saved(folder):
    """The modules that were checked, each with the seconds since the one before it."""
    files = sorted(folder.rglob("*.oantt"), key=lambda file: file.stat().st_mtime)
    times = [file.stat().st_mtime for file in files]
    return [(file.name.removesuffix(".oantt"), after - before) for file, before, after in zip(files[1:], times, times[1:])]


def owner(module):
    """The function or file that a module belongs to."""
    found = re.search(r"[-.](?:proofs|specs)\.(?:contracts\.)?([^.]+)", module)
    return found.group(1) if found else "the rest"


def command(crate, keep):
    """The check of the crate in one process, which saves its modules in the folder `keep`."""
    kit = pathlib.Path(shutil.which("rt")).resolve().parents[1]
    lines = dict(line.split(":", 1) for line in pathlib.Path("crates.txt").read_text().splitlines() if not line.startswith("#"))
    kind, below = next((head.split()[1:], rest.split()) for head, rest in lines.items() if head.split()[0] == crate)
    root = next(file for file in ("src/lib.rt", "src/main.rt") if pathlib.Path("crates", crate, file).exists())
    words = [kit / "bin/rattle", "check", "--crate-name", crate, "--jobs", "1", "--incremental", keep]
    words += ["--antt-project", kit / "rattle/logic/antt-project.json", "--logic-built", kit / "logic_built", "-L", f"dependency={kit}/rlibs"]
    words += [word for name in kind for word in ("--crate-type", name)]
    for name in ["std", *below]:
        own = pathlib.Path("crates", name, "out/rlib").resolve()
        words += ["--extern", f"{name}={own if own.exists() else kit / 'rlibs'}/{name}.rlib"]
    for folder in pathlib.Path("crates").glob("*/out/rlib"):
        words += ["-L", f"dependency={folder.resolve()}"]
    return [*map(str, words), root]


def main():
    if len(sys.argv) != 2:
        sys.exit(__doc__)
    crate = sys.argv[1]
    folder = pathlib.Path("crates", crate)
    with tempfile.TemporaryDirectory() as keep:
        for words in (["rt", "check"], command(crate, keep)):
            run = subprocess.run(words, cwd=folder, capture_output=True, text=True)
            if run.returncode != 0:
                sys.exit(run.stdout + run.stderr)
        modules = saved(pathlib.Path(keep))
    owners = collections.Counter()
    for module, seconds in modules:
        owners[owner(module)] += seconds
    for name, seconds in owners.most_common(12):
        print(f"{seconds:7.1f}  {name}")
        for module, part in sorted(modules, key=lambda m: -m[1]):
            if owner(module) == name and part >= 1 and seconds >= 2:
                print(f"{'':9}{part:7.1f}  {module.rsplit(name + '.', 1)[-1].removesuffix('.decls')}")


if __name__ == "__main__":
    main()
