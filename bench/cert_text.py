#!/usr/bin/env python3
"""Times `cert_text::read` on certificates of many tables and of a deep tree, beside Python's `bytes.split`.

It copies the repository to a temporary folder, adds a program there that reads a file and times `read` on its bytes, builds it with
`rt run`, and prints for each certificate the seconds (the best of five), the megabytes a second, those of `bytes.split` over the
same bytes, and the program's greatest memory for a byte. Wanted: 100 MB a second, or the rate of `split` where that is lower; a
tree of 1,048,576 splits in under a second; at most 100 bytes of memory for a byte of version 1; and of a list of tables in version 2 at
most one and a half times the seconds of version 1.

    python3 bench/cert_text.py            # at the top of the repository, with `rt` on the path
"""
import pathlib
import random
import shutil
import subprocess
import tempfile
import time

PROGRAM = """#![tactic(auto)]

use cert_text::{CertFault, read};
use std::fs;
use std::io;
use std::time::Instant;

fn main(rt: HostRuntime) -> io::Result<()> {
    let bytes = fs::read(&rt, "PATH")?;
    let start = Instant::now(&rt)?;
    let outcome = read(rt.alloc(), &bytes);
    let time = start.elapsed(&rt)?.as_nanos();
    match outcome {
        Ok(_) => println!(rt; "{time} ok"),
        Err(CertFault::At { line, .. }) => println!(rt; "{time} line {line}"),
        Err(CertFault::NoMemory) => println!(rt; "{time} no memory"),
    }
}
"""
SPLITS = 1_048_576


def drawn_tables(size, share):
    """Tables of at least so many bytes where each is told whole: 100 units, 48 periods, prices of up to eleven digits, and 20 ramp rows.
    Of the numbers of a table this share is drawn anew for the next one."""
    random.seed(1)
    places = [(g, t) for g in range(1, 101, 10) for t in (7, 18)]
    table, drawn, length = ([0] * 48, [0] * 48, dict.fromkeys(places, (1, 0))), [], 0

    def next_of(old, least, most):
        return random.randint(least, most) if not drawn or random.random() < share else old

    while length < size:
        pi, mu, rows = table
        table = (
            [next_of(it, -(10**10), 10**10) for it in pi],
            [next_of(it, 0, 10**9) for it in mu],
            {place: (next_of(rows[place][0], 1, 10**9), 0) for place in places},
        )
        drawn.append(table)
        length += len(whole(table))
    return drawn


def whole(table):
    pi, mu, rows = table
    ramps = "".join(f"ramp {g} {t} {up} {down}\n" for (g, t), (up, down) in rows.items())
    return f"table 1000000\npi {' '.join(map(str, pi))}\nmu {' '.join(map(str, mu))}\nramps {len(rows)}\n{ramps}"


def changes(before, table):
    lines = [f"{word} {t} {new}\n" for word, olds, news in zip("pm", before, table) for t, (old, new) in enumerate(zip(olds, news), 1) if old != new]
    lines += [f"r {g} {t} {up} {down}\n" for (g, t), (up, down) in table[2].items() if before[2][g, t] != (up, down)]
    return f"next 1000000 {len(lines)}\n{''.join(lines)}"


def certificate(drawn, version):
    """A certificate of these tables."""
    texts = [whole(it) for it in drawn[:1]] + [whole(it) if version == 1 else changes(before, it) for before, it in zip(drawn, drawn[1:])]
    head = f"uc-certificate {version}\nsize 48 100 0 {len(drawn)}\nclaim bound 300.000000\nschedule none\n"
    return (head + "".join(texts) + "bound 1\nend\n").encode()


def small_tables(size):
    """The same of one unit and one period, whose tables are as short as they can be."""
    table = "table 0\npi 1\nmu 0\nramps 0\n"
    count = size // len(table) + 1
    head = f"uc-certificate 1\nsize 1 1 0 {count}\nclaim infeasible\nschedule none\n"
    return (head + table * count + "ray 1\nend\n").encode()


def tree():
    """A chain of splits, each of which has a leaf as its off-child."""
    head = "uc-certificate 1\nsize 1 1 0 1\nclaim infeasible\nschedule none\ntable 0\npi 1\nmu 0\nramps 0\n"
    return (head + "split 1 1\nray 1\n" * SPLITS + "ray 1\nend\n").encode()


def off_schedule():
    """A schedule of 4,096 units that are off in all of 168 periods."""
    row = "t" + " -" * 168 + "\n"
    head = "uc-certificate 1\nsize 168 4096 0 0\nclaim bound 0.000000\nschedule 0.000000\n"
    return (head + row * 4096 + "empty 1\nend\n").encode()


def best(run, count=5):
    return min(run() for _ in range(count))


def split_seconds(data):
    start = time.perf_counter()
    data.split()
    return time.perf_counter() - start


def build(folder, data):
    """The path of a program that reads the file and tells how long `read` took."""
    top = pathlib.Path(__file__).resolve().parent.parent
    copy = folder / "repository"
    shutil.copytree(top, copy, ignore=shutil.ignore_patterns(".git", "out", "*.log"))
    crate = copy / "crates" / "timing"
    (crate / "src").mkdir(parents=True)
    (crate / "src" / "main.rt").write_text(PROGRAM.replace("PATH", str(data)))
    with open(copy / "crates.txt", "a") as crates:
        crates.write("timing: cert_text\n")
    subprocess.run(["rt", "run"], cwd=crate, check=True, stdout=subprocess.DEVNULL)
    return crate / "out" / "timing"


def main():
    with tempfile.TemporaryDirectory() as name:
        folder = pathlib.Path(name)
        path = folder / "input.cert"
        path.write_bytes(certificate(drawn_tables(1000, 1), 1))
        program = build(folder, path)

        def seconds():
            words = subprocess.run([program], check=True, capture_output=True, text=True).stdout.split()
            assert words[1:] == ["ok"], words
            return int(words[0]) / 1e9

        texts = [("small tables", small_tables(20_000_000)), ("tree", tree()), ("schedule", off_schedule())]
        for share in (1, 0.1):
            drawn = drawn_tables(20_000_000, share)
            texts += [(f"tables, {share:.0%} new, version {version}", certificate(drawn, version)) for version in (1, 2)]
        for label, data in texts:
            path.write_bytes(data)
            reader, python = best(seconds), best(lambda: split_seconds(data))
            one = subprocess.run(["/usr/bin/time", "-f", "%M", program], capture_output=True, text=True)
            memory = int(one.stderr.split()[-1]) * 1024
            print(
                f"{label}: {len(data)} bytes, read {reader:.3f} s ({len(data) / reader / 1e6:.0f} MB/s), "
                f"split {python:.3f} s ({len(data) / python / 1e6:.0f} MB/s), {memory / len(data):.1f} bytes a byte"
            )


if __name__ == "__main__":
    main()
