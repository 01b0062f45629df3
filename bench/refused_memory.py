#!/usr/bin/env python3
"""Refuses each request for memory of whole runs in turn.

    python3 bench/refused_memory.py PROGRAM [on] [COMMAND ..]     # PROGRAM is `crates/uc/out/uc`, or `unproved`

A library that is loaded before the program's own hands requests on to glibc, but for the one of a number, or with `on` that one and all
behind it: the first one in one run, the second in the next, and so on until a run asks less often. The commands are `solve` by two workers
with two evaluations, `check`, `upgrade`, `uplift` and `demo`, or those named, on one, two and ten units; all but `solve` on the 40 of `demo 0`
too, which `demo` searches itself. `upgrade` is tried with a file and with a link at the certificate's name as well. A run has to end with 8, one line on the error output, and nothing written, nor a draft left; or as it
does where nothing is refused. Where two workers share a search, that is by a status from 0 to 3 and a certificate that is accepted. Told are,
of each run, how many numbers were tried, and how many ended in which way; and each that ended otherwise. The status is 1 where one did.
"""
import collections
import json
import pathlib
import subprocess
import sys
import tempfile

import demos
import search
import unproved

REFUSER = """
typedef unsigned long size;
void *__libc_malloc(size), *__libc_realloc(void *, size), *__libc_calloc(size, size);
char *getenv(const char *);
size strtoul(const char *, char **, int);
int *__errno_location(void);
void *mmap(void *, size, int, int, int, long);
static size *asked, number, on;
static int fails(void) {
    size now = asked ? __atomic_add_fetch(asked, 1, __ATOMIC_SEQ_CST) : 0;
    int is_refused = now && (now == number || (on && now > number));
    if (is_refused) *__errno_location() = 12;
    return is_refused;
}
void *malloc(size bytes) { return fails() ? 0 : __libc_malloc(bytes); }
void *realloc(void *block, size bytes) { return fails() ? 0 : __libc_realloc(block, bytes); }
void *calloc(size count, size bytes) { return fails() ? 0 : __libc_calloc(count, bytes); }
__attribute__((constructor)) static void begun(void) {
    on = getenv("ON") != 0;
    number = strtoul(getenv("NUMBER"), 0, 10);
    asked = mmap(0, sizeof *asked, 3, 1, strtoul(getenv("ASKED"), 0, 10), 0);
}
"""
COMMANDS = "solve", "check", "upgrade", "uplift", "demo"
CASES = {
    "one unit": search.TOP / "crates" / "uc" / "data" / "row1.json",
    "two units": search.TOP / "crates" / "run_cases" / "data" / "pair.json",
    "ten units": search.TOP / "examples" / "kazarlis10.json",
}
BUDGET = "--units", "2", "--gap", "0"
# A run with several workers may ask less often than the one before.
SHORT_RUNS = 20

# What a run did: its status, what it wrote to its outputs, and the files that are new in its folder, by their names.
Answer = collections.namedtuple("Answer", "status out err files")


def refuser(folder):
    """The path of the library, made in this folder."""
    source, made = folder / "refuser.c", folder / "refuser.so"
    source.write_text(REFUSER)
    tools = unproved.kit() / "toolchain"
    words = [tools / "bin" / "clang", f"--target={unproved.TARGET}", "-O2", "-shared", "-fPIC", "-nostdlib", "-fuse-ld=lld"]
    subprocess.run([*words, "-fno-builtin", source, "-o", made, tools / "lib" / "libc.so.6"], check=True)
    return made


def files_of(folder):
    return {it.name: it.read_bytes() for it in folder.iterdir()}


def prepare(folder, stands):
    """Empties the folder, and has nothing stand there, a file at the certificate's name, or a link to one."""
    for it in folder.iterdir():
        it.unlink()
    if stands == "file":
        (folder / "made.cert").write_bytes(b"before")
    elif stands == "link":
        (folder / "other.cert").write_bytes(b"before")
        (folder / "made.cert").symlink_to("other.cert")


def answer(words, folder, loaded=None):
    """What a run did in this folder, and how often it asked for memory where that is counted."""
    with tempfile.TemporaryFile() as count:
        count.write(bytes(8))
        count.flush()
        environment = {**loaded, "ASKED": str(count.fileno())} if loaded else {}
        ran = subprocess.run(words, cwd=folder, env=environment, capture_output=True, pass_fds=[count.fileno()], stdin=subprocess.DEVNULL)
        count.seek(0)
        asked = int.from_bytes(count.read(), sys.byteorder)
    return Answer(ran.returncode, ran.stdout, ran.stderr, files_of(folder)), asked


def is_shared(words):
    """Whether several workers share the search."""
    return words[0] == "solve" and "--units" in words


def is_lawful(program, words, found, folder):
    """Whether a run of several workers ended as one may do that isn't refused memory."""
    if found.status not in range(4) or found.err or list(found.files) != ["made.cert"]:
        return False
    certificate = folder.parent / "found.cert"
    certificate.write_bytes(found.files["made.cert"])
    return subprocess.run([program, "check", words[1], certificate], capture_output=True).returncode == 0


def series(program, library, words, stands, is_on, folder):
    """How many runs with these words, of which in each the next request is refused, ended in which way, and how many failed."""
    prepare(folder, stands)
    refused = Answer(8, b"", b"out of memory\n", files_of(folder))
    plain, _ = answer([program, *words], folder)
    ended, failed, number, short = collections.Counter(), 0, 0, 0
    while short < (SHORT_RUNS if is_shared(words) else 1):
        number += 1
        loaded = {"LD_PRELOAD": str(library), "NUMBER": str(number), **({"ON": "1"} if is_on else {})}
        prepare(folder, stands)
        found, asked = answer([program, *words], folder, loaded)
        if asked < number:
            short += 1
            continue
        if found == refused:
            ended["refused"] += 1
        elif found == plain or is_shared(words) and is_lawful(program, words, found, folder):
            ended["as without"] += 1
        else:
            failed += 1
            print(f"FAILED: {' '.join(map(str, words))}, request {number}: status {found.status}, {found.err}, {found.files.keys()}", flush=True)
    return ended, failed


def runs(program, commands, folder):
    """The name of each run, its words, and what stands at the certificate's name."""
    case = folder / "demo.json"
    case.write_text(json.dumps(demos.instance(0)))
    for name, instance in {**CASES, "40 units": case}.items():
        certificate = folder / f"{instance.stem}.cert"
        budget = () if name == "one unit" else BUDGET
        subprocess.run([program, "solve", instance, "--cert", certificate, *budget], capture_output=True)
        words = {
            "check": ["check", instance, certificate],
            "upgrade": ["upgrade", certificate, "--cert", "made.cert"],
            "uplift": ["uplift", instance, certificate],
        }
        if name in CASES:
            words["solve"] = ["solve", instance, "--cert", "made.cert", "--workers", "2", *budget]
        for command in commands:
            if command in words:
                yield f"{command}, {name}", words[command], None
        if "upgrade" in commands:
            yield f"upgrade over a file, {name}", words["upgrade"], "file"
            yield f"upgrade over a link, {name}", words["upgrade"], "link"
    if "demo" in commands:
        yield "demo", ["demo", "0"], None


def main(program, is_on, commands):
    with tempfile.TemporaryDirectory() as made:
        folder = pathlib.Path(made)
        program = search.built(folder) if program == "unproved" else pathlib.Path(program).resolve()
        library, place, tried, all_failed = refuser(folder), folder / "place", 0, 0
        place.mkdir()
        for name, words, stands in runs(program, commands or COMMANDS, folder):
            ended, failed = series(program, library, words, stands, is_on, place)
            tried, all_failed = tried + ended.total() + failed, all_failed + failed
            told = ", ".join(f"{times} {way}" for way, times in sorted(ended.items()))
            print(f"{name}: {ended.total() + failed} numbers, {told}, {failed} otherwise", flush=True)
    print(f"{tried} numbers tried, {all_failed} failed")
    return all_failed > 0


if __name__ == "__main__":
    if len(sys.argv) < 2 or not set(sys.argv[2:]) <= {"on", *COMMANDS}:
        raise SystemExit(__doc__)
    sys.exit(main(sys.argv[1], "on" in sys.argv[2:], [it for it in sys.argv[2:] if it != "on"]))
