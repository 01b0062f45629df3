#!/usr/bin/env python3
"""Prints how many seconds each function and lemma file of a crate took to prove, the slowest first.

    rm -rf crates/NAME/out && (cd crates/NAME && rt check --jobs 1)    # from nothing, one module after another
    python3 bench/proof_times.py NAME [--most 25]

A check keeps what it has proved in out/, a file for each module, as it goes. The time between two files is taken for that of the
later one, by the clock, so the machine is best left alone. The modules of a function, as of its code, its borrows and its proof, are
added up under its name; what libraries took stands under theirs.
"""
import argparse
import pathlib
import re

TOP = pathlib.Path(__file__).resolve().parent.parent
# A function's own modules end in these words, or in these with more behind them.
PART = re.compile(r"\.(Lts|Proof|Answers|Goals|Invariants|Statement|Met|Code|Tie|Kinds|Owed|Contract|Body)(-.*)?$")


def module(path):
    """The module that a file was written for, without the library's name in front."""
    name = path.name.removesuffix(".oantt").removesuffix(".decls")
    return re.sub(r"^Rattle-", "", name)


def function(name):
    """The function or the lemma file of a module."""
    return PART.sub("", name)


def seconds(crate):
    """The seconds of each function and lemma file."""
    files = sorted((it.stat().st_mtime, it) for it in (TOP / "crates" / crate / "out" / "incremental").rglob("*.oantt"))
    found = {}
    for (before, _), (after, path) in zip(files, files[1:]):
        name = function(module(path))
        found[name] = found.get(name, 0) + after - before
    return found


def main():
    words = argparse.ArgumentParser(description=__doc__.split("\n", 1)[0])
    words.add_argument("crate")
    words.add_argument("--most", type=int, default=25)
    asked = words.parse_args()
    found = seconds(asked.crate)
    for name, spent in sorted(found.items(), key=lambda it: -it[1])[: asked.most]:
        print(f"{spent:7.1f}  {name}")
    print(f"{sum(found.values()):7.1f}  in all")


if __name__ == "__main__":
    main()
