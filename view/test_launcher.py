"""Tests the launcher `uc` in a tree of its own, with commands that play `rt` and the compiler, and a program that tells its words."""
from __future__ import annotations

import os
import pathlib
import re
import resource
import shutil
import signal
import subprocess
import sys
import tempfile
import time
import unittest
from typing import Callable, Dict, Optional, Tuple
from unittest import mock

HERE = pathlib.Path(__file__).resolve().parent
TOP = HERE.parent
TOOLS = (
    "awk bash cat chmod cp date dirname env find flock git grep head mkdir mktemp mv nproc readlink rm sed setsid sh sha256sum sleep sort stat "
    "tail touch xargs"
).split()
USAGE = (TOP / "launch/usage.txt").read_text()
PROGRAM = """#!/bin/sh
case $1 in solve | check | demo) ;; *) cat "$TOP/launch/usage.txt" >&2; exit 5 ;; esac
echo "NAME $*"
exit 1
"""
# what plays `rt ci`: it proves crate by crate, and waits where a file says so
RT = """#!/bin/sh
if [ "$1" = version ]; then echo "rattle-kit-1 logic 0"; exit; fi
[ "$1" = ci ] || exit 9
for name in uc_model uc; do
  mkdir -p crates/$name/out
  while [ -e "$TOP/slow" ]; do touch "$TOP/waits"; sleep 0.1; done
  if [ -e "$TOP/broken" ]; then echo "a goal is open"; exit 1; fi
  echo "== $name"
done
sed s/NAME/proved/ "$TOP/program" > crates/uc/out/uc
chmod +x crates/uc/out/uc
"""
SEARCH = """import os, pathlib, time
def built(folder):
    top = pathlib.Path(os.environ["TOP"])
    while (top / "slow").exists():
        (top / "waits").touch()
        time.sleep(0.1)
    if (top / "broken").exists():
        raise SystemExit("no such form")
    made = folder / "made"
    made.write_text((top / "program").read_text().replace("NAME", "unproved"))
    made.chmod(0o755)
    return made
"""
MADE = 'top=$1; . "$top/launch/record.sh"; digest_sources; make_record "$2" "$digest" "rattle-kit-1 logic 0"'
UNPROVED = "uc: this program is UNPROVED, compiled without proofs; ./uc without UC_BUILD proves it\n"
# words that are refused, and what is said of them
WRONG_WORDS = (
    ("", "a command is missing"),
    ("frob", '"frob" is no command'),
    ("Solve a --cert=b", '"Solve" is no command'),
    ("solve a", "solve wants --cert"),
    ("solve --cert=b", "solve wants FILE"),
    ("check a", "check wants CERT"),
    ("check a b c", '"c" is a word too many'),
    ("solve a --cert=b --unit 5", 'solve has no option "--unit"'),
    ("solve a -cert b", 'solve has no option "-cert"'),
    ("check a b --units=5", 'check has no option "--units"'),
    ("roll a --window=3 --step=3 --exact-units", 'roll has no option "--exact-units"'),
    ("roll a --window=3 --step=3 --pivot", 'roll has no option "--pivot"'),
    ("roll a --window 3", "roll wants --step"),
    ("solve a --cert", "--cert has no value"),
    ("solve a --cert --units 5", "--cert has no value"),
    ("solve a --cert=b --units=5 --units 6", "--units is there twice"),
    ("solve a --cert=b --exact=yes", "--exact takes no value"),
    ("solve a --cert=b --units 0", '--units wants a whole number from 1 to 1000000, and "0" is none'),
    ("solve a --cert=b --gap=0.1", '--gap wants a whole number from 0 to 1000000, and "0.1" is none'),
    ("solve a --cert=b --workers 65", '--workers wants a whole number from 1 to 64, and "65" is none'),
    ("uplift a b --table=1000003", '--table wants a whole number from 1 to 1000002, and "1000003" is none'),
    ("demo 4294967296", 'SEED wants a whole number from 0 to 4294967295, and "4294967296" is none'),
    ("demo", "demo wants SEED"),
)
RIGHT_WORDS = (
    "check a b",
    "check -- a -b",
    "check --shed=5 a --spill-reserve +7 -",
    "demo 007",
    "solve --cert c --units 00000000000001000000 --gap=-0 --exact --exact-units --pivot --workers=64 -- --units",
)


class LauncherTest(unittest.TestCase):
    """Runs the launcher in a tree with two crates, one of which is the program."""

    def setUp(self) -> None:
        folder = tempfile.TemporaryDirectory()
        self.addCleanup(folder.cleanup)
        self.folder = pathlib.Path(folder.name).resolve()
        self.top, self.temporary = self.folder / "top", self.folder / "temporary"
        self.temporary.mkdir()
        for name in ("uc", "launch", "HANDLES"):
            (shutil.copytree if (TOP / name).is_dir() else shutil.copy)(TOP / name, self.put(f"top/{name}", None))
        self.put("top/crates.txt", "uc_model:\nuc: uc_model # the program\n")
        self.put("top/crates/uc_model/src/lib.rt", "")
        self.source = self.put("top/crates/uc/src/main.rt", "")
        self.put("top/docs/PROVED.md", "Proved with `rattle-kit-1 logic 0`, as `rt version` prints it.\n")
        self.put("top/bench/search.py", SEARCH)
        self.put("top/program", PROGRAM)
        self.tools = self.folder / "tools"
        self.tools.mkdir()
        for tool in TOOLS:
            found = shutil.which(tool)
            if found:
                (self.tools / tool).symlink_to(found)
        (self.tools / "python3").symlink_to(sys.executable)
        self.rt = self.put("tools/rt", RT)
        self.rt.chmod(0o755)

    def put(self, name: str, text: Optional[str]) -> pathlib.Path:
        """A file, or the place of one."""
        path = self.folder / name
        path.parent.mkdir(parents=True, exist_ok=True)
        if text is not None:
            path.write_text(text)
        return path

    def environment(self, build: Optional[str]) -> Dict[str, str]:
        """The tools, and the tree for the commands that play others."""
        told = {"PATH": str(self.tools), "TOP": str(self.top), "TMPDIR": str(self.temporary), "HOME": str(self.folder)}
        return told if build is None else {**told, "UC_BUILD": build}

    def start(self, *words: str, build: Optional[str] = None, limits: Optional[Callable[[], None]] = None) -> "subprocess.Popen[str]":
        """A run that goes on, under limits of the system where these are told."""
        pipes = {"stdout": subprocess.PIPE, "stderr": subprocess.PIPE}
        how = {"cwd": str(self.folder), "env": self.environment(build), "text": True}
        return subprocess.Popen([str(self.top / "uc"), *words], stdin=subprocess.DEVNULL, preexec_fn=limits, **pipes, **how)

    def run_uc(self, *words: str, build: Optional[str] = None) -> Tuple[int, str, str]:
        """The status of a run, and what it printed and said."""
        run = self.start(*words, build=build)
        out, err = run.communicate(timeout=60)
        return run.returncode, out, err

    def built(self, program: str = PROGRAM.replace("NAME", "proved")) -> None:
        """The proved program, as an earlier run built it."""
        path = self.put("top/crates/uc/out/uc", program)
        path.chmod(0o755)
        subprocess.run(["bash", "-euc", MADE, "-", str(self.top), str(path)], check=True)

    def edit(self, text: str = "// edited") -> None:
        """Another source, which has the time of the one before."""
        time_before = self.source.stat().st_mtime_ns
        self.source.write_text(text)
        os.utime(self.source, ns=(time_before, time_before))

    def wait_for(self, name: str) -> None:
        """Waits for a file of the tree."""
        for _ in range(300):
            if (self.top / name).exists():
                return
            time.sleep(0.1)
        self.fail(f"no {name}")


class Building(LauncherTest):
    def test_program_is_built_once_and_again_for_another_source(self) -> None:
        status, out, said = self.run_uc("check", "a b", "c")
        self.assertEqual((status, out), (1, "proved check a b c\n"))
        for words in ("uc: proving and building the program", "of 2 proved, some", "uc: built in 0 min"):
            self.assertIn(words, said)
        self.assertEqual(self.run_uc("demo", "3"), (1, "proved demo 3\n", ""))
        self.edit()
        self.assertIn("uc: proving", self.run_uc("demo", "3")[2])
        self.assertEqual(list(self.temporary.iterdir()), [])
        self.assertEqual(sorted(it.name for it in (self.top / "crates/uc/out").iterdir()), ["uc", "uc.files", "uc.made"])

    def test_missing_rt_is_told_first(self) -> None:
        self.rt.unlink()
        for words in (("solve", "a", "--cert=no/b"), ("frob",)):
            status, out, said = self.run_uc(*words)
            self.assertEqual((status, out), (70, ""))
            lines = said.splitlines()
            self.assertEqual(lines[0], "uc: the program isn't built yet, and rt, which builds it, isn't on the path")
            self.assertIn("Rattle kit", lines[1])
            self.assertIn("this repository is proved with rattle-kit-1", lines[1])
        self.assertEqual(self.run_uc("demo", "3", build="unproved")[0], 70)
        self.assertEqual(self.run_uc("help")[0], 0)
        self.assertFalse((self.top / "out").exists())

    def test_rt_is_not_wanted_by_a_program_that_is_built(self) -> None:
        self.built()
        self.rt.unlink()
        self.assertEqual(self.run_uc("demo", "3"), (1, "proved demo 3\n", ""))
        self.edit()
        said = "uc: the program was built of other sources, and rt, which builds it, isn't on the path\n"
        self.assertIn(said, self.run_uc("demo", "3")[2])

    def test_failed_build_names_its_log(self) -> None:
        (self.top / "broken").touch()
        for build, why in ((None, "a goal is open"), ("unproved", "no such form")):
            status, _, said = self.run_uc("demo", "3", build=build)
            self.assertEqual(status, 70)
            self.assertIn(why, said)
            log = re.search("the log is (.*)\n", said)
            self.assertTrue(log and why in pathlib.Path(log[1]).read_text())
        (self.top / "broken").unlink()
        self.assertNotIn("killed", self.run_uc("demo", "3")[2])

    def test_one_builds_and_others_wait(self) -> None:
        (self.top / "slow").touch()
        first = self.start("demo", "1")
        self.wait_for("waits")
        second = self.start("demo", "2")
        time.sleep(2)
        (self.top / "slow").unlink()
        said = [run.communicate(timeout=60) for run in (first, second)]
        self.assertEqual([out for out, _ in said], ["proved demo 1\n", "proved demo 2\n"])
        self.assertIn("built in", said[0][1])
        self.assertEqual(said[1][1], "uc: waiting for another run, which builds the program\n")

    def test_what_a_stopped_build_leaves_is_told(self) -> None:
        for build in (None, "unproved"):
            (self.top / "slow").touch()
            run = self.start("demo", "1", build=build)
            self.wait_for("waits")
            time.sleep(1.5)
            run.send_signal(signal.SIGTERM)
            _, said = run.communicate(timeout=60)
            self.assertEqual(run.returncode, 143)
            self.assertIn("uc: stopped", said)
            self.assertEqual("with 0 of 2 proved" in said, build is None)
            self.assertEqual(list(self.temporary.iterdir()), [])
            (self.top / "waits").unlink()
            (self.top / "slow").unlink()
        self.built()
        (self.top / "slow").touch()
        self.edit()
        run = self.start("demo", "1")
        self.wait_for("waits")
        run.send_signal(signal.SIGTERM)
        self.assertIn(f"the program of the sources before stays at {self.top}/crates/uc/out/uc\n", run.communicate(timeout=60)[1])

    def test_what_a_killed_build_leaves_is_told(self) -> None:
        (self.top / "slow").touch()
        run = self.start("demo", "1")
        self.wait_for("waits")
        run.kill()
        run.communicate(timeout=60)
        (left,) = self.temporary.iterdir()
        (self.top / "slow").unlink()
        status, _, said = self.run_uc("demo", "1")
        self.assertEqual(status, 1)
        self.assertIn(f"uc: a build that was killed left the folder {left}, which may be deleted\n", said)


class Records(LauncherTest):
    """Which programs are run, by what stands beside them of their sources."""

    def state(self) -> str:
        """What is said of the proved program."""
        told = re.search("^program: ([^;,\n]*)", self.run_uc("version")[1], re.M)
        return told[1] if told else ""

    def test_a_program_that_was_built_otherwise_is_built_anew(self) -> None:
        self.put("top/crates/uc/out/uc", PROGRAM.replace("NAME", "other")).chmod(0o755)
        self.assertEqual(self.state(), "not built by ./uc")
        self.assertEqual(self.run_uc("demo", "3")[1], "proved demo 3\n")
        self.put("top/crates/uc/out/uc", PROGRAM.replace("NAME", "others"))
        self.assertEqual(self.state(), "not built by ./uc")
        self.built()
        (self.top / "crates/uc/out/uc.made").write_text("sources\n\n[0 x\n")
        self.assertEqual(self.state(), "not built by ./uc")

    def test_each_change_of_the_sources_is_seen(self) -> None:
        self.built()
        first = self.source.with_name("first.antt")
        for change in (
            lambda: self.edit("// an edit"),
            lambda: self.edit("// an exit"),
            lambda: first.write_text(""),
            lambda: first.rename(first.with_name("second.antt")),
            lambda: first.with_name("second.antt").unlink(),
            lambda: self.put("top/HANDLES", "Handles allowed: none.\n"),
            lambda: self.put("top/crates.txt", "uc_model:\nuc: uc_model\n"),
        ):
            change()
            self.assertEqual(self.state(), "built of other sources")
            self.built()
            self.assertEqual(self.state(), "built of these sources")

    def test_what_changes_no_source_is_none(self) -> None:
        self.built()
        record = self.top / "crates/uc/out/uc.made"
        told = record.read_text().splitlines()
        for change in (
            lambda: os.utime(self.source, (1, 1)),
            lambda: self.put("top/crates/uc/must-fail/a.edit", "old"),
            lambda: self.put("top/crates/uc_model/out/a.rt", ""),
            lambda: (self.top / "crates/uc/out/uc.files").unlink(),
            lambda: self.top.rename(self.folder / "moved"),
        ):
            change()
            if not self.top.exists():
                self.top = self.folder / "moved"
                record = self.top / "crates/uc/out/uc.made"
            self.assertEqual(self.run_uc("demo", "3"), (1, "proved demo 3\n", ""))
            self.assertEqual(record.read_text().splitlines()[:4], told[:4])

    def test_no_content_is_read_where_nothing_changed(self) -> None:
        self.built()
        sha256sum = self.tools / "sha256sum"
        counting = f'#!/bin/sh\necho "$@" >> "{self.folder}/sums"\nexec {sha256sum.resolve()} "$@"\n'
        sha256sum.unlink()
        self.put("tools/sha256sum", counting).chmod(0o755)
        self.assertEqual(self.run_uc("demo", "3"), (1, "proved demo 3\n", ""))
        self.assertEqual((self.folder / "sums").read_text(), "\n")
        os.utime(self.source, (1, 1))
        for _ in range(2):
            self.assertEqual(self.run_uc("demo", "3"), (1, "proved demo 3\n", ""))
        self.assertIn("crates/uc/src/main.rt", (self.folder / "sums").read_text())
        self.assertEqual((self.folder / "sums").read_text().count("main.rt"), 1)


class Unproved(LauncherTest):
    def test_it_stands_elsewhere_and_is_told_on_every_run(self) -> None:
        status, out, said = self.run_uc("demo", "1", build="unproved")
        self.assertEqual((status, out), (1, "unproved demo 1\n"))
        self.assertIn("uc: compiling the program without proofs", said)
        self.assertTrue(said.endswith(UNPROVED))
        self.assertFalse((self.top / "crates/uc/out").exists())
        self.assertEqual(self.run_uc("demo", "1", build="unproved"), (1, "unproved demo 1\n", UNPROVED))
        self.assertEqual(self.run_uc("demo", "1")[1], "proved demo 1\n")
        self.assertEqual(self.run_uc("demo", "1", build="unproved")[1], "unproved demo 1\n")
        self.assertEqual(self.run_uc("demo", "1", build="proved"), (1, "proved demo 1\n", ""))

    def test_another_source_is_compiled(self) -> None:
        self.put("top/out/unproved/uc", "").chmod(0o755)
        for _ in range(2):
            self.assertIn("uc: compiling", self.run_uc("demo", "1", build="unproved")[2])
            self.assertEqual(self.run_uc("demo", "1", build="unproved")[2], UNPROVED)
            self.edit()

    def test_what_is_edited_while_it_is_compiled_is_compiled_again(self) -> None:
        (self.top / "slow").touch()
        run = self.start("demo", "1", build="unproved")
        self.wait_for("waits")
        self.edit()
        (self.top / "slow").unlink()
        self.assertEqual(run.communicate(timeout=60)[0], "unproved demo 1\n")
        self.source.write_text("")
        self.assertIn("program without proofs: built of other sources; the next run builds it anew\n", self.run_uc("version")[1])

    def test_python_is_wanted(self) -> None:
        (self.tools / "python3").unlink()
        status, _, said = self.run_uc("demo", "1", build="unproved")
        self.assertEqual((status, said), (70, "uc: the program isn't built yet, and python3, which compiles it, isn't on the path\n"))

    def test_other_builds_are_none(self) -> None:
        self.assertEqual(self.run_uc("demo", "1", build="fast"), (5, "", 'uc: UC_BUILD is "fast", and takes proved or unproved\n'))


class Words(LauncherTest):
    def test_wrong_words_are_named_above_the_usage(self) -> None:
        self.assertEqual(self.run_uc("frob"), (5, "", f'uc: "frob" is no command; ./uc help tells all words\n{USAGE}'))
        self.assertFalse((self.top / "crates/uc/out").exists())
        self.built('#!/bin/sh\necho "the program refuses" >&2\nexit 5\n')
        for words, what in WRONG_WORDS:
            with self.subTest(words):
                said = f"uc: {what}; ./uc help tells all words\nthe program refuses\n"
                self.assertEqual(self.run_uc(*words.split()), (5, "", said))

    def test_right_words_go_on(self) -> None:
        self.built()
        for words in RIGHT_WORDS:
            self.assertEqual(self.run_uc(*words.split()), (1, f"proved {words}\n", ""))
        self.assertEqual(self.run_uc("check", "", "two words"), (1, "proved check  two words\n", ""))

    def test_help_and_version(self) -> None:
        self.put("top/view/uc-view", '#!/usr/bin/env python3\n"""Draws a report; `uc-view --help` tells the words."""\n')
        page = (TOP / "launch/help.txt").read_text() + f"  {'view/uc-view':17}  Draws a report\n"
        for words in (["help"], ["--help"], ["solve", "--help"], ["solve", "a", "-h"]):
            self.assertEqual(self.run_uc(*words), (0, page, ""))
        self.assertEqual(self.run_uc("check", "--", "-h")[0], 5)
        _, told, said = self.run_uc("version")
        self.assertEqual(said, "")
        lines = told.splitlines()
        self.assertEqual(lines[0], "uc of no commit")
        self.assertRegex(lines[1], "^sources: [0-9a-f]{64}$")
        self.assertEqual(lines[2:4], ["program: not built", "program without proofs: not built"])
        self.built()
        made = rf"  {lines[1].replace(':', '')}, kit rattle-kit-1 logic 0, built \d{{4}}-\d\d-\d\d \d\d:\d\d UTC\n"
        self.assertRegex(self.run_uc("version")[1], f"\nprogram: built of these sources, crates/uc/out/uc\n{made}")
        self.edit()
        self.assertRegex(self.run_uc("version")[1], f"\nprogram: built of other sources; the next run builds it anew\n{made}")

    def test_the_page_has_all_words_of_the_formats(self) -> None:
        formats, page = (TOP / "docs/FORMATS.md").read_text(), (TOP / "launch/help.txt").read_text()
        words = formats.partition("## Words")[2].partition("## Numbers")[0]
        commands = re.findall("^    uc ([a-z]+) (.*)$", words, re.M)
        self.assertGreaterEqual(len(commands), 6)
        taken = (TOP / "launch/words.sh").read_text()
        for name, rest in commands:
            self.assertRegex(page, rf"\./uc {name} ")
            self.assertIn(f"[{name}]=", taken)
            for option in re.findall("--[a-z-]+", rest):
                self.assertIn(option, page)
                self.assertRegex(taken, rf"\b{option[2:]}\b")
        usage = "".join(re.findall("^    ((?:usage:|      ) .*\n)", formats, re.M))
        self.assertEqual(usage, USAGE)


class Limits(LauncherTest):
    """What a program meets that is run under limits of the system."""

    def told(self, kind: int, most: int) -> str:
        """What a program says that writes 4096 bytes."""
        self.built('#!/bin/sh\nhead -c 4096 /dev/zero >big 2>/dev/null\necho "$? ${MALLOC_ARENA_MAX-none}"\n')
        run = self.start("demo", "3", limits=lambda: resource.setrlimit(kind, (most, most)))
        return run.communicate(timeout=60)[0]

    def test_a_limit_on_sizes_is_a_fault_and_no_signal(self) -> None:
        self.assertEqual(self.told(resource.RLIMIT_FSIZE, 2048), "1 none\n")

    def test_a_limit_on_addresses_is_one_on_arenas(self) -> None:
        self.assertEqual(self.told(resource.RLIMIT_AS, 2 * 1024**3), "0 9\n")
        self.assertEqual(self.told(resource.RLIMIT_AS, 200 * 1024**2), "0 1\n")
        with mock.patch.object(self, "environment", lambda build: {**LauncherTest.environment(self, build), "MALLOC_ARENA_MAX": "3"}):
            self.assertEqual(self.told(resource.RLIMIT_AS, 2 * 1024**3), "0 3\n")


class Certificates(LauncherTest):
    def test_places_that_cannot_be_written(self) -> None:
        self.built()
        instance = self.put("a.json", "")
        self.put("kept.cert", "").chmod(0o444)
        closed = self.folder / "closed"
        closed.mkdir(mode=0o555)
        places = [
            ("no/b.cert", f"there is no folder {self.folder}/no"),
            ("a.json/b.cert", f"there is no folder {self.folder}/a.json"),
            ("top", "is a folder"),
            ("new/", "is a folder"),
            ("a.json", "is the file that is read"),
        ]
        if os.geteuid():
            places += [("closed/b.cert", f"the folder {closed} takes no new file"), ("kept.cert", "may not be written")]
        for place, why in places:
            for words in ([f"--cert={place}"], ["--cert", place]):
                status, out, said = self.run_uc("solve", str(instance), *words)
                self.assertEqual((status, out), (7, ""))
                self.assertRegex(said, rf"^uc: --cert {re.escape(place)}:? {re.escape(why)}\nwrite failed: certificate\n$")
        # a file that can't be read is the program's to tell, which looks at it first
        self.assertEqual(self.run_uc("solve", "none.json", "--cert=no/b.cert")[0], 1)

    def test_places_that_can(self) -> None:
        self.built()
        self.put("a.json", "")
        self.put("old.cert", "")
        (self.folder / "link.cert").symlink_to("old.cert")
        (self.folder / "dangling.cert").symlink_to("top/made.cert")
        for place in ("b.cert", "./b.cert", "old.cert", "link.cert", "dangling.cert", "top/b.cert", str(self.folder / "b.cert"), "/dev/null"):
            self.assertEqual(self.run_uc("solve", "a.json", f"--cert={place}"), (1, f"proved solve a.json --cert={place}\n", ""))


if __name__ == "__main__":
    unittest.main()
