#!/usr/bin/env python3
"""Runs `rt ci` and prints, as a table, the processor minutes of each crate for its proof, its tests and its must-fail edits.

    python3 bench/gate.py            # at the top of the repository, with `rt` on the path; what rt says goes to gate.log
    python3 bench/gate.py --anew     # from nothing, where earlier runs on this machine have kept what they passed
    python3 bench/gate.py --write    # where the gate passed the table goes into docs/PERFORMANCE.md, and what each proof takes into ./uc
    python3 bench/gate.py NAME ..    # these crates alone, with those below them
    taskset -c 0,1 python3 bench/gate.py --anew    # by the clock of two processors

What a run didn't prove or try, since an earlier one has kept it, keeps the minutes that the page has. So one run from nothing, or some
runs of crates by name on a new machine and a last one of all, make the whole table. Below it stand the kit, the processors, the load when
the run began, and the longest chain of proofs, each of which waits for the one before, up to the program `uc`.

Five times a second it looks at the processes below `rt ci` and keeps the processor time of each. The words of a check name its
crate and say whether it is one of tests, and an edit is checked in a folder of its own. What is left of the whole time, as linking
and running, stands in the row `rest`: of a whole run from nothing its own, and else the page's, if that is more. The memory is the
greatest sum of what these processes held, with shared pages counted anew.
"""
import os
import pathlib
import re
import resource
import subprocess
import sys
import textwrap
import time

PHASES = ("proof", "tests", "edits")
TICKS = os.sysconf("SC_CLK_TCK")
PAGE = os.sysconf("SC_PAGE_SIZE")
BEGIN, END = "<!-- gate.py: begin -->\n", "<!-- gate.py: end -->\n"


class Process:
    """A process as it was last seen: its parent, its processor seconds, the bytes that it holds, and its crate and phase."""

    def __init__(self, number):
        folder = pathlib.Path("/proc") / str(number)
        self.folder, self.of = folder, None
        self.look()

    def look(self):
        # (a process that was just begun can still have the words of the one that began it)
        if not self.of:
            words = (self.folder / "cmdline").read_bytes().decode(errors="replace").split("\0")
            self.of = task(words, os.readlink(self.folder / "cwd"))
        # (the second field, the command in brackets, can hold spaces)
        fields = (self.folder / "stat").read_text().rpartition(")")[2].split()
        self.parent, self.began = int(fields[1]), fields[19]
        self.seconds = (int(fields[11]) + int(fields[12])) / TICKS
        self.held = int(fields[21]) * PAGE


def task(words, folder):
    """The crate and the phase of a check, by its words and the folder that it runs in; nothing of another process."""
    if "--crate-name" not in words[:-1]:
        return None
    crate = words[words.index("--crate-name") + 1]
    if "rt-edit-" in folder:
        return crate, "edits"
    return crate, "tests" if "--test" in words else "proof"


def below(top, processes):
    """The processes that the process `top` started, and those that these started."""
    found = {}
    for number in processes:
        line = [number]
        while line[-1] in processes and line[-1] not in found and line[-1] != top:
            line.append(processes[line[-1]].parent)
        if line[-1] == top or line[-1] in found:
            found.update((it, processes[it]) for it in line[:-1])
    return found


def look(processes):
    """Brings the table of all processes up to date. A number that was given anew is a new process."""
    numbers = {int(it) for it in os.listdir("/proc") if it.isdigit()}
    for number in numbers:
        try:
            known, began = processes.get(number), None
            if known:
                began = known.began
                known.look()
            if not known or known.began != began:
                processes[number] = Process(number)
        except (OSError, ValueError, IndexError):
            numbers = numbers - {number}
    for number in processes.keys() - numbers:
        del processes[number]


def measured(words, log):
    """Runs the words. Returns the status, the seconds by crate and phase, the seconds in all and by the clock, and the memory."""
    seconds, memory, processes, start = {}, 0, {}, time.monotonic()
    with open(log, "w") as out, subprocess.Popen(words, stdin=subprocess.DEVNULL, stdout=out, stderr=out) as run:
        while run.poll() is None:
            look(processes)
            mine = below(run.pid, processes)
            for number, it in mine.items():
                seconds[number, it.began] = it.of, it.seconds
            memory = max(memory, sum(it.held for it in mine.values()))
            time.sleep(0.2)
    used = resource.getrusage(resource.RUSAGE_CHILDREN)
    table = {}
    for of, spent in seconds.values():
        if of:
            table[of] = table.get(of, 0) + spent
    return run.returncode, table, used.ru_utime + used.ru_stime, time.monotonic() - start, memory


def crates(top):
    """The names of the crates, in the order of crates.txt."""
    rows = (it.partition("#")[0].partition(":")[0].split() for it in (top / "crates.txt").read_text().splitlines())
    return [it[0] for it in rows if it]


def libraries(top):
    """The libraries of each crate, as crates.txt has them; those of the kit are left out."""
    rows = (it.partition("#")[0].partition(":") for it in (top / "crates.txt").read_text().splitlines())
    found = {name.split()[0]: used.split() for name, _, used in rows if name.split()}
    return {name: [it for it in used if it in found] for name, used in found.items()}


def longest_chain(name, uses, proofs, known):
    """The seconds of the longest chain of proofs that ends with the crate, and its crates."""
    if name not in known:
        below = max((longest_chain(it, uses, proofs, known) for it in uses[name]), default=(0, []))
        known[name] = below[0] + proofs.get(name, 0), [*below[1], name]
    return known[name]


def needed(name, uses):
    """The crate and all that it stands on."""
    found, left = set(), [name]
    while left:
        it = left.pop()
        if it not in found:
            found.add(it)
            left += uses[it]
    return found


def with_weights(script, names, proofs):
    """The text of `./uc` with the seconds of these crates' proofs, by which it foretells when all is proved."""
    # (a crate and its seconds stand in one line)
    words = " ".join(f"{it}={max(1, round(proofs[it]))}" for it in names if it in proofs)
    text = textwrap.fill(words, 116, subsequent_indent="  ", break_on_hyphens=False)
    return re.sub(r"(?ms)^weights='.*?'$", lambda _: "weights='" + text.replace("=", " ") + "'", script)


def row(name, numbers):
    return f"| {name} | " + " | ".join("" if it is None else f"{it / 60:.1f}" for it in numbers) + " |\n"


def told(page):
    """The seconds by crate and phase that the page has, and those of its row `rest`."""
    block = page.read_text().partition(BEGIN)[2].partition(END)[0]
    rows = [[cell.strip() for cell in line.strip("| ").split("|")] for line in block.splitlines() if line.startswith("| ")]
    table = {
        (cells[0], phase): 60 * float(cell)
        for cells in rows
        if cells[0] not in ("Crate", "rest", "sum")
        for phase, cell in zip(PHASES, cells[1:])
        if cell
    }
    return table, sum(60 * float(cells[-1]) for cells in rows if cells[0] == "rest")


def as_text(names, table, rest):
    text = "| Crate | Proof | Tests | Edits | Sum |\n|---|---|---|---|---|\n"
    for name in names:
        spent = [table.get((name, phase)) for phase in PHASES]
        text += row(name, [*spent, sum(it or 0 for it in spent)])
    text += row("rest", [None, None, None, rest])
    phases = (sum(it for of, it in table.items() if of[1] == phase) for phase in PHASES)
    return text + row("sum", [*phases, sum(table.values()) + rest])


def conditions(load, clock, new, table):
    """The kit, the day, the processors, the load before the run, its minutes by the clock, and how much of the table is of it."""
    kit = subprocess.run(["rt", "version"], capture_output=True, text=True).stdout.split()
    rows = "" if new == table else f"; {new} of {table} numbers are of this run, the others of runs before"
    day = time.strftime("%-d %B %Y", time.gmtime())
    machine = f"{len(os.sched_getaffinity(0))} processors, load {load:.1f} before it"
    return f"`{kit[0]}`, {day}, {machine}, {clock / 60:.0f} minutes by the clock{rows}."


def chain_text(top, table):
    proofs, uses = {name: it for (name, phase), it in table.items() if phase == "proof"}, libraries(top)
    seconds, chain = longest_chain("uc", uses, proofs, {})
    built = sum(proofs.get(it, 0) for it in needed("uc", uses))
    return (
        f"The longest chain of proofs takes {seconds / 60:.1f} minutes: {', '.join(f'`{it}`' for it in chain)}. "
        f"What `./uc` proves at its first build takes {built / 60:.0f} processor minutes."
    )


def written(top, table, text):
    """Puts the text into the page, and the seconds of the proofs into `./uc`."""
    page, launcher = top / "docs" / "PERFORMANCE.md", top / "uc"
    block = re.compile(f"{re.escape(BEGIN)}.*{re.escape(END)}", re.S)
    page.write_text(block.sub(lambda _: BEGIN + text + END, page.read_text()))
    proofs, behind = {name: it for (name, phase), it in table.items() if phase == "proof"}, needed("uc", libraries(top))
    launcher.write_text(with_weights(launcher.read_text(), [it for it in crates(top) if it in behind], proofs))


def main():
    top, words = pathlib.Path.cwd(), sys.argv[1:]
    given, load = [it for it in words if it == "--anew" or not it.startswith("--")], os.getloadavg()[0]
    status, new, whole, clock, memory = measured(["rt", "ci", *given], top / "gate.log")
    table, rest = told(top / "docs" / "PERFORMANCE.md")
    kept = {of: it for of, it in table.items() if of[1] != "edits" or (top / "crates" / of[0] / "must-fail").is_dir()}
    names = crates(top)
    table = {of: it for of, it in (kept | new).items() if of[0] in names}
    notes = [conditions(load, clock, len(new), len(table)), chain_text(top, table)]
    own = whole - sum(new.values())
    text = as_text(names, table, own if given == ["--anew"] else max(rest, own))
    text += "".join("\n" + textwrap.fill(it, 116, break_on_hyphens=False) + "\n" for it in notes)
    print(text, end="")
    print(f"this run: {whole / 60:.0f} processor minutes; {memory / 1e9:.1f} GB")
    print(f"rt ci ended with status {status}: {(top / 'gate.log').read_text().splitlines()[-1]}")
    if "--write" in words and status == 0:
        written(top, table, text)
    return status


if __name__ == "__main__":
    sys.exit(main())
