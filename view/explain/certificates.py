"""A fault of the certificate in a sentence, with the line where the file is given."""
from __future__ import annotations

import re
from typing import Any, List, Optional, Tuple

from reasons.hours import joined
from reasons.leaves import decisions, leaves_of
from reasons.system import System, check
from schedule_view.amounts import amount, dollars_text
from schedule_view.certificate import read_certificate
from schedule_view.instance import Instance, read_instance
from schedule_view.refusal import Refusal, shown

from .texts import CERTIFICATE_CODES, LINE_KINDS, RULES

_SIZES = ("periods", "thermal units", "renewable units")
_TAILS = {
    "C1": r"table ([1-9][0-9]*)",
    "C2": r"(M[1-9][0-9]?)( thermal ([1-9][0-9]*)| renewable ([1-9][0-9]*))?( period [1-9][0-9]*)",
    "C3": r"written (-?[0-9]+\.[0-9]{6}) computed (-?[0-9]+\.[0-9]{6})",
    "C4": r"node ([1-9][0-9]*)", "C5": r"node ([1-9][0-9]*)", "C6": r"node ([1-9][0-9]*)", "C7": r"node ([1-9][0-9]*)",
}

# a file that was given: its name and its bytes
File = Optional[Tuple[str, bytes]]


def line_fault(number: int, kind: str, certificate: File) -> List[str]:
    """A line of the certificate that its grammar doesn't have."""
    what = LINE_KINDS[kind]
    if certificate is None:
        return [f"Line {number:,} of the certificate: {what}.", "Give the certificate by --certificate to see the line."]
    path, data = certificate
    lines = data.split(b"\n")
    there = shown(lines[number - 1].decode("utf-8", "replace")) if number <= len(lines) and lines[number - 1] else "nothing"
    told = [f"{path} line {number:,}: {what}. There stands {there}."]
    try:
        read_certificate(path, data, takes_parts=True)
        told.append("The file has no such fault: it isn't the one of that run.")
    except Refusal as refusal:
        if f"line {number}: " in str(refusal):
            told.append(f"uc-view says of it: {str(refusal)[len(path) + 2:]}.")
    return told


def code_fault(code: str, text: str, certificate: File, instance: File) -> Optional[List[str]]:
    """A code of the certificate; None where the text behind it is none of this code."""
    if code not in CERTIFICATE_CODES:
        return None
    found = re.fullmatch(_TAILS.get(code, ""), text)
    if found is None:
        return None
    words: Tuple[str, ...] = ()
    if code == "C2":
        words = found[1], _where(found[3], found[4], found[5], instance), RULES[found[1]]
    elif code == "C3":
        words = tuple(_money(part) for part in found.groups())
    elif code in _TAILS:
        word = text.split(" ")[0]
        words = (f"{word} {int(found[1]):,}",)
    sentence = f"The certificate is refused: {CERTIFICATE_CODES[code].format(*words)}."
    return [sentence, *_more(code, found, certificate, instance)]


def _money(text: str) -> str:
    return dollars_text(amount(text) or 0)


def _where(thermal: Optional[str], renewable: Optional[str], period: str, instance: File) -> str:
    """The unit and the period of a broken rule; the unit by its name where the instance is given."""
    kind, number = ("thermal", thermal) if thermal else ("renewable", renewable)
    unit = ""
    if number:
        name = _name(kind, int(number), instance)
        unit = f" at {kind} unit {number}{f', {name},' if name else ''}"
    return f"{unit} in{period}"


def _name(kind: str, number: int, instance: File) -> str:
    if instance is None:
        return ""
    read = read_instance(*instance)
    units = read.thermal if kind == "thermal" else read.renewable
    return shown(units[number - 1].name) if number <= len(units) else ""


def _more(code: str, found: "re.Match[str]", certificate: File, instance: File) -> List[str]:
    """What the files tell besides."""
    if certificate is None:
        return ["Give the certificate by --certificate to see the line."] if code in ("C1", "C4", "C5", "C6", "C7") else []
    path, data = certificate
    read = _read(path, data)
    if code == "C1":
        return _table(path, data, read, int(found[1]))
    if code in ("C4", "C5", "C6", "C7"):
        return _node(path, data, read, int(found[1]), instance)
    if code == "C9" and instance:
        made = read_instance(*instance)
        return [f"{path} has {_sizes(read.size)}; {instance[0]} has {_sizes(_sizes_of(made))}."]
    if code == "C10":
        shed, spill_reserve = read.prices
        return [f"{path} was made with {_price('--shed', shed)} and {_price('--spill-reserve', spill_reserve)}."]
    if code == "C12":
        return [f"The denominator of {path} is {read.denominator}."]
    if code == "C13":
        return [f"{path} has {len(read.tables):,} {'table' if len(read.tables) == 1 else 'tables'}."]
    return []


def _read(path: str, data: bytes) -> Any:
    """The certificate as `examples/check.py` has it. Refused where it has no text."""
    try:
        return check.certificate_of(data)
    except check.Refused as refused:
        raise Refusal(path, "", str(refused)) from None


def _sizes(sizes: Tuple[int, ...]) -> str:
    return joined([f"{size:,} {word}" for size, word in zip(sizes, _SIZES)])


def _sizes_of(instance: Instance) -> Tuple[int, int, int]:
    return instance.periods, len(instance.thermal), len(instance.renewable)


def _price(option: str, price: int) -> str:
    return f"{option} {price}" if price else f"no {option}"


def _table(path: str, data: bytes, read: Any, number: int) -> List[str]:
    """The line of a table, and its first number past a limit."""
    lines = [n for n, line in enumerate(data.split(b"\n"), 1) if line.startswith((b"table ", b"next "))]
    if number > len(read.tables):
        return [f"{path} has no table {number}: it isn't the one of that run."]
    table, faults = read.tables[number - 1], []
    if table.scale > 10**9:
        faults.append(f"K is {table.scale:,}")
    for word, row, least in (("pi", table.pi, -(10**14)), ("mu", table.mu, 0)):
        faults += [f"{word} of period {t} is {n:,}" for t, n in enumerate(row, 1) if not least <= n <= 10**14]
    for (g, t), row in sorted(table.ramps.items()):
        faults += [f"{word} of unit {g} and period {t} is {n:,}" for word, n in zip(("up", "down"), row) if not 0 <= n <= 10**14]
    what = faults[0] if faults else "no number of it is past a limit: it isn't the file of that run"
    return [f"{path} line {lines[number - 1]:,}: table {number}; {what}."]


def _node(path: str, data: bytes, read: Any, number: int, instance: File) -> List[str]:
    """The line of a node, and what is decided on the way to it."""
    if number > len(read.nodes):
        return [f"{path} has no node {number}: it isn't the one of that run."]
    line = len(data.split(b"\n")) - 2 - len(read.nodes) + number
    words = " ".join(map(str, read.nodes[number - 1]))
    told = [f'{path} line {line:,}: node {number} is "{words}".']
    leaf = next((it for it in leaves_of(read.nodes) if it.node == number), None)
    if leaf is None or instance is None:
        return told
    system = System(*instance, read.prices)
    if leaf.decided and max(leaf.decided) <= len(system.names):
        told.append(f"On the way to it {decisions(system, leaf.decided)}.")
    if leaf.word in ("bound", "exact") and read.bound is not None and read.size == (system.periods, len(system.names), len(system.renewable_names)):
        table = read.tables[leaf.number - 1]
        value = system.value(table, leaf.decided, leaf.is_exact) if table.scale else None
        if value is not None:
            given, claimed = (dollars_text(it) for it in (value // table.scale, read.bound))
            told.append(f"Table {leaf.number} gives {given} there, and {claimed} are claimed.")
    return told

