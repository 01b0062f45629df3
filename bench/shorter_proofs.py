#!/usr/bin/env python3
"""Writes proofs of a crate as one call of `grind` where that is shorter and proves them, and says how many lines that saves.

    python3 bench/shorter_proofs.py NAME [--jobs 1]    # at the top of the repository, with `rt` on the path; then rt tidy in the crate

A clause of a lemma or of an answer that takes several lines is tried with the facts that it is given, then with the lemmas that its
proof names besides, then with the fields that it reads. Each try stands in the file as a lemma of its own behind the one that it is to
replace, so that one check judges all of them, and none waits for another. What passed is put in the place of the written proof, and
checked again; what fails there, as where the proof was by induction, stays as it was. Commit before: an interrupt leaves the tries.
"""
import argparse
import pathlib
import re
import subprocess

TOP = pathlib.Path(__file__).resolve().parent.parent
NAME = r"[^\s(){}\[\],.;λ=:⟨⟩|]+"
PATH = r"[^\s(){}\[\],;λ=:⟨⟩|]+"
WIDTH = 150
# Words of std that proofs name and that are no lemmas; a capital letter tells most others.
NO_LEMMAS = set("""ap subst sym refl inl inr arith linear ints rules true false zero suc pos negsuc absurd tt elim let in as record cond
 length map max min not fst snd take drop set get_or to_z of_z neg_ℤ unsigned_abs slice_get int_max int_min replicate sum nat_lt grind
 omega search rw simp cc assumption first_of unwrap_or""".split())


class Clause:
    """A clause of a lemma: its lines, from and to, and what stands before and behind `=`."""

    def __init__(self, lines, start, end, lemma):
        self.start, self.end, self.lemma = start, end, lemma
        first = lines[start]
        cut = self.equals(first, len(lemma.name))
        self.head, self.body = first[:cut], "\n".join([first[cut + 2:], *lines[start + 1:end]])
        self.patterns = parts(self.head[len(lemma.name):])
        self.tries, self.passed = [], None

    @staticmethod
    def equals(line, start):
        """Where the first ` =` stands that is in no brackets."""
        depth = 0
        for at in range(start, len(line)):
            depth += (line[at] in "([{") - (line[at] in ")]}")
            if depth == 0 and (line[at:] + " ").startswith(" = "):
                return at
        return len(line)

    def given(self):
        """The variables that the clause names: those that the signature names too are no facts."""
        typed = self.lemma.signature.split(":", 1)[1]
        variables = []
        for pattern in self.patterns:
            variables += re.findall(NAME, pattern)[1:] if pattern.startswith("(") else [pattern]
        apart = [it for it in variables if it not in NO_LEMMAS | {"_", "None"} and not it.startswith("{")]
        return variables, [it for it in apart if not re.search(rf"(?<![\w'-]){re.escape(it)}(?![\w'-])", typed)]

    def inductive(self):
        """The lemma's own calls in the body; None where one reads what is bound on the way."""
        bound = set(re.findall(rf"let ({NAME})", self.body))
        for binder in re.findall(r"λ ([^.]*)\.", self.body):
            bound |= set(re.findall(NAME, binder))
        calls = []
        for at in re.finditer(rf"(?<![\w.-]){re.escape(self.lemma.name)}(?![\w-])", self.body):
            given = parts(self.body[at.end():])[:len(self.patterns)]
            call = f"({' '.join([self.lemma.name, *given])})"
            if len(given) < len(self.patterns) or call.count("(") != call.count(")") or set(re.findall(NAME, call)) & bound:
                return None
            calls.append(call)
        return calls

    def find_tries(self, imported):
        """The calls to try, the shortest first."""
        calls = self.inductive()
        if calls is None:
            return
        variables, facts = self.given()
        lemmas = [it for it in re.findall(NAME, self.body) if is_lemma(it, imported, self.lemma.before) and it not in variables]
        fields = [it.rstrip(".") for it in re.findall(PATH, self.body) if "." in it.rstrip(".") and it.split(".")[0] in variables]
        numbers = ["ints"] if "ints" in imported else ["linear"] if "linear" in imported else []
        for more in ([], lemmas, lemmas + fields):
            cited = list(dict.fromkeys(["arith", *numbers, *more, *facts, *calls]))
            call = f"grind ({', '.join(cited)})" if cited[1:] else "grind arith"
            lines = [f"{self.head} = {call}"]
            if len(lines[0]) > WIDTH:
                lines = [f"{self.head} =", f"    {call}"]
            if max(map(len, lines)) <= WIDTH and len(lines) < self.end - self.start and lines not in self.tries:
                self.tries.append(lines)


class Lemma:
    """A lemma or an answer: its name and signature, the names before it in the file, and its clauses."""

    def __init__(self, name, signature, before):
        self.name, self.signature, self.before, self.clauses = name, signature, before, []

    def copied(self, lines, clause, number):
        """The lemma under another name, with a try in the place of a clause."""
        name = f"try{number}-{clause.start}-{self.name}"
        copy = re.sub(rf"^(pub )?{re.escape(self.name)}", lambda _: name, self.signature, count=1).split("\n")
        for it in self.clauses:
            body = clause.tries[number] if it is clause else lines[it.start:it.end]
            copy += [name + body[0][len(self.name):], *body[1:]]
        return copy


class File:
    """A file of proofs: its lines, what it imports, and its lemmas."""

    def __init__(self, path):
        self.path, self.lines = path, path.read_text().split("\n")
        self.imported = {}
        for module, names in re.findall(r"^use Rattle\.([\w.+-]+)\.\{(.*)\}$", "\n".join(self.lines), re.M):
            self.imported |= {name.split(" as ")[-1]: module for name in names.split(", ")}
        self.lemmas = self.read()

    def find_tries(self):
        """What to try of each clause that takes several lines; the clauses with some."""
        clauses = [it for lemma in self.lemmas for it in lemma.clauses if it.end - it.start > 1]
        for clause in clauses:
            clause.find_tries(self.imported)
        return [it for it in clauses if it.tries]

    def end_of(self, start):
        """The line behind what starts here: lines further in and closing brackets belong to it, and so does an empty line before one."""
        at = start + 1
        while at < len(self.lines) and re.match(r"[ })\]]", self.lines[at] or "".join(self.lines[at + 1:at + 2])):
            at += 1
        return at

    def read(self):
        lemmas, at = [], 0
        while at < len(self.lines):
            end = self.end_of(at)
            signature = re.match(rf"(?:pub )?({NAME}) :(?: |$)", self.lines[at])
            if signature:
                lemmas.append(Lemma(signature[1], "\n".join(self.lines[at:end]), [it.name for it in lemmas]))
            elif lemmas and re.match(rf"{re.escape(lemmas[-1].name)}(?: .*)? =(?: |$)", self.lines[at]):
                lemmas[-1].clauses.append(Clause(self.lines, at, end, lemmas[-1]))
            at = end
        return lemmas

    def write(self, with_tries):
        """Writes the file with what has passed, and all tries behind their lemmas; the lines of each clause's try and its number."""
        out, marks = [], []
        clauses = {it.start: it for lemma in self.lemmas for it in lemma.clauses}
        ends = {lemma.clauses[-1].end: lemma for lemma in self.lemmas if lemma.clauses}
        at = 0
        while at <= len(self.lines):
            for clause in ends[at].clauses if with_tries and at in ends else []:
                for number in range(len(clause.tries)):
                    copy = clause.lemma.copied(self.lines, clause, number)
                    marks.append((len(out) + 1, len(out) + len(copy), clause, number))
                    out += copy
            clause = clauses.get(at)
            if clause and clause.passed is not None:
                tried = clause.tries[clause.passed]
                marks.append((len(out) + 1, len(out) + len(tried), clause, clause.passed))
                out += tried
                at = clause.end
            else:
                out += self.lines[at:at + 1]
                at += 1
        text = "\n".join(out)
        if marks and "arith" not in self.imported:
            text = text.replace("use Rattle.std.proofs.Common.{", "use Rattle.std.proofs.Common.{arith, ", 1)
        self.path.write_text(text)
        return marks


def parts(text):
    """The parts of an application: names, and what stands in brackets."""
    found, at = [], 0
    while at < len(text):
        if text[at] in " \n":
            at += 1
            continue
        start, depth = at, 0
        while at < len(text) and (depth or text[at] not in " \n),;]}"):
            depth += (text[at] in "([{") - (text[at] in ")]}")
            at += 1
        if at == start or text[start:at] in ("=", "→", "∙", "in"):
            break
        found.append(re.sub(r"\s+", " ", text[start:at]))
    return found


def is_lemma(name, imported, before):
    """Whether a word of a proof is the name of a lemma, as far as its form tells."""
    if name in NO_LEMMAS or name.startswith("◌"):
        return False
    module = imported.get(name, "")
    told = "-" in name or "_" in name
    return name in before or ".proofs" in module and (told or module != "std.proofs.Common" and name[0].islower())


def errors(crate, jobs):
    """The lines of files of proofs at which a check of the crate stops, and whether it passed."""
    check = subprocess.run(["rt", "check", "--jobs", str(jobs)], cwd=TOP / "crates" / crate, capture_output=True, text=True)
    found = re.findall(r"^(?:\./)?(proofs/.*?\.antt):(\d+):\d+: error: (.*)", check.stdout + check.stderr, re.M)
    return [(file, int(line)) for file, line, told in found if "not checked" not in told], check.returncode == 0


def main():
    words = argparse.ArgumentParser(description=__doc__.split("\n", 1)[0])
    words.add_argument("crate")
    words.add_argument("--jobs", type=int, default=1)
    asked = words.parse_args()
    root = TOP / "crates" / asked.crate
    files = {str(path.relative_to(root)): File(path) for path in sorted((root / "proofs").rglob("*.antt"))}
    clauses = [it for file in files.values() for it in file.find_tries()]
    marks = {name: file.write(True) for name, file in files.items()}
    stopped, _ = errors(asked.crate, asked.jobs)
    failed = {(id(it), n) for name, line in stopped for low, high, it, n in marks[name] if low <= line <= high}
    for clause in clauses:
        clause.passed = next((n for n in range(len(clause.tries)) if (id(clause), n) not in failed), None)
    proved = False
    while not proved:
        marks = {name: file.write(False) for name, file in files.items()}
        stopped, proved = errors(asked.crate, asked.jobs)
        again = [it for name, line in stopped for low, high, it, _ in marks[name] if low <= line <= high]
        if not proved and not again:
            raise SystemExit("the crate isn't proved, for a reason that no try explains: see rt check")
        for clause in again:
            clause.passed = None
    kept = [it for it in clauses if it.passed is not None]
    saved = sum(it.end - it.start - len(it.tries[it.passed]) for it in kept)
    print(f"{asked.crate}: {len(clauses)} clauses tried, {len(kept)} written shorter, {saved} lines fewer")


if __name__ == "__main__":
    main()
