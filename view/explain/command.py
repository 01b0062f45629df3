"""The command: words, the lines that are explained, and what is printed."""
from __future__ import annotations

import argparse
import re
import sys
from typing import List, Optional, Tuple

from schedule_view.files import read_file
from schedule_view.refusal import Refusal, printable, shown

from . import certificates, instances
from .texts import JSON_KINDS, LINE_KINDS, MEMORY, READ_FAILED, STATUSES, TOO_LONG, USAGE, WRITE_FAILED

ABOUT = """Turns a line of the error output of `uc` into a sentence: what is wrong, and where. With the instance, or the certificate, it tells
the line, the column and the value. A number from 0 to 10 is taken for the status of a run. Status 0 where the line was explained, 1 where
it is none of `uc` or a file was refused, 2 where the words are faulty."""
EXAMPLE = """example: view/uc-explain 'instance: I4 thermal "g1" ramp_up_limit' --instance FILE, or 2> errors of a run and
view/uc-explain --instance FILE < errors"""
# what `uc-table` puts before a line
_PREFIX = re.compile(r"uc-table: .*?: status [0-9]+: ")
_LONG = {"instance: more than 67108864 bytes": "instance", "certificate: more than 70368744177664 bytes": "certificate"}


def main(words: List[str]) -> int:
    """Runs the command; 0 where the lines were explained, 1 where one wasn't or a file was refused, 2 where the words are faulty."""
    given = _parser().parse_args(words)
    try:
        lines = _explained(_lines(given), _file(given.instance), _file(given.certificate))
    except Refusal as refusal:
        print(f"uc-explain: {refusal}", file=sys.stderr)
        return 1
    for line in lines:
        print(printable(line))
    return 0


def _parser() -> argparse.ArgumentParser:
    parser = argparse.ArgumentParser(prog="uc-explain", description=ABOUT, epilog=EXAMPLE)
    parser.add_argument("line", metavar="LINE", nargs="*", help="the line, or a status; without it lines come from the standard input")
    parser.add_argument("--instance", metavar="FILE", help="the instance of the run, for line, column and value")
    parser.add_argument("--certificate", metavar="FILE", help="the certificate that was checked, for its line")
    return parser


def _file(path: Optional[str]) -> Optional[Tuple[str, bytes]]:
    return None if path is None else (path, read_file(path))


def _lines(given: argparse.Namespace) -> List[str]:
    """The lines that are to be explained; those of the usage behind its first one go with it, and `./uc` speaks plainly by itself."""
    text = " ".join(given.line) if given.line else sys.stdin.read()
    lines = [_PREFIX.sub("", line.strip(" \r")) for line in text.split("\n")]
    return [line for line in lines if line and not line.startswith(("uc ", "uc: "))]


def _explained(lines: List[str], instance: certificates.File, certificate: certificates.File) -> List[str]:
    """Each line, and below it what it means."""
    if not lines:
        raise Refusal("the standard input", "", "no line")
    told: List[str] = []
    for line in lines:
        try:
            meaning = _meaning(line, instance, certificate)
        except Refusal as refusal:
            meaning = [f"A file that was given isn't the one of that run: {refusal}"]
        if meaning is None:
            raise Refusal(shown(line), "", "no line of the error output of uc, and no status")
        told += ([""] if told else []) + meaning
    return told


def _meaning(line: str, instance: certificates.File, certificate: certificates.File) -> Optional[List[str]]:
    """What a line says; None where it is none of `uc`."""
    status = re.fullmatch(r"(?:status |exit status )?(0|[1-9][0-9]?)", line)
    if status:
        return [_status(int(status[1]))] if int(status[1]) in STATUSES else None
    found = _fault(line, instance, certificate)
    return None if found is None else [*found[1], _status(found[0])]


def _status(number: int) -> str:
    return f"Status {number}: {STATUSES[number]}"


def _fault(line: str, instance: certificates.File, certificate: certificates.File) -> Optional[Tuple[int, List[str]]]:
    """The status of a fault, and the sentences on it."""
    if line in _LONG:
        return (4 if _LONG[line] == "instance" else 9), [TOO_LONG[_LONG[line]]]
    if line.startswith("usage: uc"):
        return 5, [USAGE]
    if line == "out of memory":
        return 8, [MEMORY]
    word, _, rest = line.partition(": ")
    if word == "read failed" and rest in ("instance", "certificate"):
        return 6, [f"The {rest}: {READ_FAILED}."]
    if word == "write failed" and rest in WRITE_FAILED:
        return 7, [WRITE_FAILED[rest]]
    if word == "instance":
        told = _instance(rest, instance)
        return (4, told) if told else None
    if word == "certificate":
        told = _certificate(rest, certificate, instance)
        return (9, told) if told else None
    return None


def _instance(rest: str, instance: certificates.File) -> Optional[List[str]]:
    path, data = instance or ("", None)
    byte = re.fullmatch(r"byte (0|[1-9][0-9]*): (.*)", rest)
    if byte:
        return instances.json_fault(int(byte[1]), byte[2], path, data) if byte[2] in JSON_KINDS else None
    code = re.fullmatch(r"(I[1-9])(?: (.*))?", rest)
    return instances.code_fault(code[1], code[2] or "", path, data) if code else None


def _certificate(rest: str, certificate: certificates.File, instance: certificates.File) -> Optional[List[str]]:
    line = re.fullmatch(r"line ([1-9][0-9]*): (.*)", rest)
    if line:
        return certificates.line_fault(int(line[1]), line[2], certificate) if line[2] in LINE_KINDS else None
    code = re.fullmatch(r"(C[1-9][0-9]?)(?: (.*))?", rest)
    return certificates.code_fault(code[1], code[2] or "", certificate, instance) if code else None
