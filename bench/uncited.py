#!/usr/bin/env python3
"""Prints the lemmas in the crates' proofs/ that nothing cites. With --drop it takes them out, with what is cited by them alone.

    python3 bench/uncited.py [--drop]    # at the top of the repository; then rt tidy in the crates that changed

A lemma is cited where its name stands outside of its own lines, in any file, or where it isn't `pub` in its own: so a public one whose
name another lemma shares is not told, nor one that is imported under another name. Answers aren't lemmas. A comment right above a lemma goes with it.
"""
import argparse
import collections
import re

from shorter_proofs import File, PATH, TOP


def words_of(text):
    """How often each word stands in a text, but for comments and imports under its own name; of a path each part counts too."""
    cited = "\n".join(line for line in text.split("\n") if not re.match(r"\s*(?:\w+ )*use |--", line)).replace("::", " ")
    found = collections.Counter(re.findall(rf"({PATH}) as ", text))
    for word in re.findall(PATH, cited):
        found.update({word.rstrip("."), *word.split(".")})
    return found


def lemmas_of(path):
    """The lemmas of a file of proofs, each with the lines that it takes."""
    for lemma in File(path).lemmas:
        answer = "goal." in lemma.signature or path.name == "Invariants.antt" or path.name == "Answers.antt" and lemma.signature.startswith("pub ")
        if lemma.clauses and not answer and "◌" not in lemma.name:
            yield lemma, lemma.clauses[0].start - len(lemma.signature.split("\n")), lemma.clauses[-1].end


def without(lines, gone):
    """The lines without those from and to of each lemma in `gone`, the comment right above it and one empty line behind it."""
    left = set(range(len(lines)))
    for start, end in gone:
        above = start
        while above > 0 and lines[above - 1].startswith("--") and not lines[above - 1].startswith("-- ----"):
            above -= 1
        if above == 0 or lines[above - 1].startswith("use "):
            above = start
        left -= set(range(above, end + (end < len(lines) and lines[end] == "")))
    return [lines[at] for at in sorted(left)]


def main():
    words = argparse.ArgumentParser(description=__doc__.split("\n", 1)[0])
    words.add_argument("--drop", action="store_true")
    drop = words.parse_args().drop
    sources = [path for ending in ("rt", "antt", "edit") for path in (TOP / "crates").rglob(f"*.{ending}") if "out" not in path.parts]
    used = {path: words_of(path.read_text()) for path in sources}
    found = True
    while found:
        everywhere = collections.Counter()
        for words_there in used.values():
            everywhere.update(words_there)
        found = False
        for path in [it for it in sources if "proofs" in it.parts and it.suffix == ".antt"]:
            lines = path.read_text().split("\n")
            gone = []
            for lemma, start, end in lemmas_of(path):
                places = everywhere if lemma.signature.startswith("pub ") else used[path]
                if places[lemma.name] <= words_of("\n".join(lines[start:end]))[lemma.name]:
                    print(f"{path.relative_to(TOP)}: {lemma.name}")
                    gone.append((start, end))
            if gone and drop:
                found = True
                path.write_text("\n".join(without(lines, gone)))
                used[path] = words_of(path.read_text())


if __name__ == "__main__":
    main()
