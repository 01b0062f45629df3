"""Follows the links of the pages: each leads to a file and a heading that are there, and README has one to each page of docs/."""
from __future__ import annotations

import pathlib
import re
import sys
import tempfile
import unittest
from typing import Iterator, List, Set, Tuple

sys.dont_write_bytecode = True
TOP = pathlib.Path(__file__).resolve().parent.parent
PAGES = "*.md", "docs/*.md", "examples/*.md", "view/tests/*.md"
LINK = re.compile(r"\]\(([^()\s]+)\)")
# a file that is named in the text or in a command, as bench/search.py; a folder in capitals, as in crates/NAME/src/lib.rt, stands for any
NAMED = re.compile(
    r"(?<![\w./-])(?:bench|crates|docs|examples|view)/(?:(?![A-Z]+/)[\w-]+/)*[\w-]+(?:\.[\w-]+)*\.(?:antt|cert|json|md|png|py|report|rt)\b"
)
INDENT = "    "


def pages(top: pathlib.Path) -> List[pathlib.Path]:
    """The pages below a folder."""
    return sorted(page for pattern in PAGES for page in top.glob(pattern))


def lines(page: pathlib.Path) -> List[str]:
    """The lines of a page."""
    return page.read_text(encoding="utf-8").splitlines()


def texts(page: pathlib.Path) -> Iterator[Tuple[int, str]]:
    """The lines with their numbers, without blocks of code."""
    return ((number, line) for number, line in enumerate(lines(page), 1) if not line.startswith(INDENT))


def anchor(heading: str) -> str:
    """What a link to a heading ends in: its words in small letters, parted by hyphens."""
    kept = re.sub(r"[^\w\- ]", "", re.sub(LINK, "", heading).strip().lower())
    return kept.replace(" ", "-")


def anchors(page: pathlib.Path) -> Set[str]:
    """The anchors of a page; one that comes again has a number behind it."""
    found: Set[str] = set()
    for _, line in texts(page):
        if re.match(r"#{1,6} ", line):
            name = anchor(line.lstrip("#"))
            count = sum(1 for it in found if it == name or re.fullmatch(re.escape(name) + r"-\d+", it))
            found.add(f"{name}-{count}" if count else name)
    return found


def fault(top: pathlib.Path, page: pathlib.Path, link: str) -> str:
    """What is wrong with a link of a page; nothing where it leads somewhere. Links to other hosts aren't followed."""
    if link.startswith("https://"):
        return ""
    path, _, name = link.partition("#")
    aim = (page.parent / path).resolve() if path else page
    if not aim.exists() or top not in (aim, *aim.parents):
        return "no file of the repository"
    if name and (aim.suffix != ".md" or name not in anchors(aim)):
        return "no heading of that page"
    return ""


def faults(top: pathlib.Path) -> List[str]:
    """A line for each link below a folder that leads nowhere, and for each file that is named, also in code, and isn't there."""
    told = []
    for page in pages(top):
        place = page.relative_to(top)
        wrong = [(number, link, fault(top, page, link)) for number, line in texts(page) for link in LINK.findall(line)]
        for number, line in enumerate(lines(page), 1):
            wrong += [(number, name, "no such file") for name in NAMED.findall(LINK.sub("", line)) if not (top / name).exists()]
        told += [f"{place}:{number}: {what}: {why}" for number, what, why in sorted(wrong) if why]
    return told


class Links(unittest.TestCase):
    """The links of the pages."""

    def test_links(self) -> None:
        """Each link of each page leads to a file, and to a heading where it has one; so does each file that is named."""
        self.assertEqual(faults(TOP), [])

    def test_pages_are_linked(self) -> None:
        """README has a link to each page of docs/."""
        links = {link.partition("#")[0] for _, line in texts(TOP / "README.md") for link in LINK.findall(line)}
        wanted = {f"docs/{page.name}" for page in (TOP / "docs").glob("*.md")}
        self.assertEqual(wanted - links, set())

    def test_faults_are_told(self) -> None:
        """Links that lead nowhere are told with their lines; those in blocks of code and to other hosts aren't followed."""
        with tempfile.TemporaryDirectory() as made:
            top = pathlib.Path(made).resolve()
            (top / "docs").mkdir()
            (top / "docs/A.md").write_text("# One `uc` thing\n\n## Twice\n\n## Twice\n\n[top](../README.md#start)\n")
            (top / "README.md").write_text(
                "# Start\n[a](docs/A.md#one-uc-thing), [b](docs/A.md#twice-1), [c](https://example.org/x), [d](#start)\n"
                "[e](docs/B.md), [f](docs/A.md#none)\n    [g](docs/C.md) ./uc check view/none.json\n"
                "as `bench/none.py` shows, but crates/C/src/m.rt\n[h](../../etc)\n"
            )
            self.assertEqual(
                faults(top),
                [
                    "README.md:3: docs/A.md#none: no heading of that page",
                    "README.md:3: docs/B.md: no file of the repository",
                    "README.md:4: view/none.json: no such file",
                    "README.md:5: bench/none.py: no such file",
                    "README.md:6: ../../etc: no file of the repository",
                ],
            )


if __name__ == "__main__":
    unittest.main()
