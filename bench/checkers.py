#!/usr/bin/env python3
"""Compares `examples/check.py` with `uc check`, on certificates as they are written and on changed ones.

    python3 bench/checkers.py PROGRAM [COUNT [SEED]]     # PROGRAM is `crates/uc/out/uc`, or `unproved`

COUNT small random instances are solved, of up to five units and six hours, with what is easily read otherwise: points that begin elsewhere
than at the minimum or aren't convex, lags that fall, hours off of units that are on; half of them with prices of unserved demand and of
missing reserve. Both check each certificate, it by other prices, ten changes of it, and it beside ten changes of the instance; a change is
to a word, a line, a byte or a number, by chance. Of each there is one in version 3 too, most of whose leaves are by exact values, and whose
powers are told over a denominator: with its changes, with the greatest bound that `check.py` takes, and with one more micro-dollar. Told are
how often each kind of answer came, and the answers that differ.
"""
import collections
import contextlib
import json
import pathlib
import random
import re
import subprocess
import sys
import tempfile

import search

TOP = pathlib.Path(__file__).resolve().parent.parent
sys.dont_write_bytecode = True
sys.path.insert(0, str(TOP / "examples"))
import check  # noqa: E402

CHANGES = 10
NUMBERS = ["0", "-0.0", "1", "-1", "2.5", "1e1", "12345e-6", "0.0000005", "1e8", "1e7", "null", "01", "[]", '"1"']
# Of bytes that are no JSON the checker tells no place.
PLACED = re.compile(r"instance: byte [0-9]+: .*")


def random_unit(chance, periods):
    low = chance.randint(0, 30)
    high, on = low + chance.randint(0, 40), chance.random() < 0.6
    first = low if chance.random() < 0.7 else chance.randint(0, 20)
    outputs = sorted([first] + [first + chance.randint(0, 50) for _ in range(chance.randint(0, 4))])
    rows = [{"lag": chance.randint(0, 5), "cost": chance.randint(-5, 90)} for _ in range(chance.randint(1, 4))]
    if chance.random() < 0.7:
        rows.sort(key=lambda row: row["lag"])
    return {
        "must_run": int(chance.random() < 0.1), "power_output_minimum": low, "power_output_maximum": high,
        "ramp_up_limit": chance.randint(10, 90), "ramp_down_limit": chance.randint(10, 90),
        "ramp_startup_limit": low + chance.randint(-1, 40), "ramp_shutdown_limit": low + chance.randint(-1, 40),
        "time_up_minimum": chance.choice([0, 1, 2, 3, periods + 1]), "time_down_minimum": chance.choice([0, 1, 2, 3, periods + 1]),
        "power_output_t0": chance.randint(low, high) if on else chance.choice([0, low]), "unit_on_t0": int(on),
        "time_up_t0": chance.randint(0, 4), "time_down_t0": chance.randint(0, 4), "startup": rows,
        "piecewise_production": [{"mw": mw, "cost": chance.randint(-50, 900) / chance.choice([1, 7])} for mw in outputs],
    }


def random_instance(chance):
    periods, units = chance.randint(1, 6), chance.randint(2, 5)
    thermal = {f"g{g}": random_unit(chance, periods) for g in range(units)}
    for it in thermal.values():
        for name in ("ramp_startup_limit", "ramp_shutdown_limit"):
            it[name] = max(it[name], 0)
    renewable = {}
    if chance.random() < 0.5:
        most = [chance.randint(0, 20) for _ in range(periods)]
        renewable["w"] = {"power_output_minimum": [it - chance.randint(0, 20) for it in most], "power_output_maximum": most}
    least = min(it["power_output_minimum"] for it in thermal.values())
    most = max(least, sum(it["power_output_maximum"] for it in thermal.values()) * chance.choice([1, 1, 1, 3]) // 2)
    return {
        "time_periods": periods, "demand": [chance.randint(least, most) for _ in range(periods)],
        "reserves": [chance.randint(-2, max(most // 10, 1)) for _ in range(periods)], "thermal_generators": thermal,
        "renewable_generators": renewable,
    }


def changed_word(chance, word):
    """A word near this one, or of another form."""
    if re.fullmatch(r"-?[0-9]+", word):
        return str(chance.choice([int(word) + 1, int(word) - 1, -int(word), 2 * int(word), 0, 10**9 + 1, 10**14 + 1]))
    parts = list(re.finditer(r"[0-9]+", word))
    if not parts or chance.random() < 0.05:
        return chance.choice(["-", "0:0:0", "none", "infeasible", "bound", "ray", "empty", "split", "exact", "exact-ray", "over", "", "01", "x"])
    part = chance.choice(parts)
    return word[:part.start()] + changed_word(chance, part.group()) + word[part.end():]


def changed_certificate(chance, text):
    lines, kind = text.split("\n"), chance.random()
    n = chance.randrange(len(lines) - 1)
    if kind < 0.6:
        words = lines[n].split(" ")
        place = chance.randrange(min(1, len(words) - 1), len(words))
        words[place] = changed_word(chance, words[place])
        lines[n] = " ".join(words)
    elif kind < 0.7:
        del lines[n]
    elif kind < 0.75:
        lines.insert(n, lines[n])
    elif kind < 0.8:
        other = chance.randrange(len(lines) - 1)
        lines[n], lines[other] = lines[other], lines[n]
    elif kind < 0.85:
        return text[:chance.randrange(len(text))]
    elif kind < 0.9:
        leaf = chance.choice(["empty 1", "bound 1", "ray 1", "split 1 1\nbound 1", "exact 1", "exact-ray 1", "exact-empty 1"])
        lines[-3] = f"split {chance.randint(1, 2)} {chance.randint(1, 3)}\n{lines[-3]}\n{leaf}"
    else:
        at = chance.randrange(len(text))
        return text[:at] + chance.choice(["", " ", "\n", "0", "-", "é", ":"]) + text[at + chance.randint(0, 1):]
    return "\n".join(lines)


def exact_certificate(chance, text):
    """The certificate in version 3: leaves by exact values, by chance, and a schedule over a denominator."""
    leaves, over, rows = {"bound": "exact", "ray": "exact-ray", "empty": "exact-empty"}, chance.choice([1, 2, 7, 99]), []
    for row in text.split("\n"):
        word, _, rest = row.partition(" ")
        if word in leaves and chance.random() < 0.8:
            row = f"{leaves[word]} {rest}"
        elif over > 1 and word in ("t", "w", "d", "e"):
            cells = (":".join(str(over * int(it)) if n < 2 else it for n, it in enumerate(cell.split(":"))) if cell != "-" else cell
                     for cell in rest.split(" "))
            row = f"{word} {' '.join(cells)}"
        elif over > 1 and word == "schedule" and rest != "none":
            row += f" over {over}"
        rows.append("uc-certificate 3" if word == "uc-certificate" else row)
    return "\n".join(rows)


def with_bound(text, bound):
    return re.sub(r"(?m)^claim bound .*", f"claim bound {check.money(bound)}", text)


def greatest_bound(options, instance, certificate, text):
    """The greatest bound that `check.py` takes in the certificate, up to some limit."""
    low = check.micro_dollars(re.search(r"(?m)^claim bound (.*)", text).group(1))
    high = low + 2**40
    while high - low > 1:
        middle = (low + high) // 2
        certificate.write_text(with_bound(text, middle))
        if answer_of_checker(options, str(instance), str(certificate))[0] == 0:
            low = middle
        else:
            high = middle
    return low


def changed_instance(chance, text):
    it = chance.choice(list(re.finditer(r"-?[0-9]+(\.[0-9]+)?", text)))
    new = chance.choice([*NUMBERS, it.group() + "1"])
    if chance.random() < 0.15:
        it = chance.choice(list(re.finditer(r'"[a-z_0]+"', text)))
        new = chance.choice(['"lag"', '"\\ud800"', '"\\""', "{}"])
    return text[:it.start()] + new + text[it.end():]


def random_prices(chance):
    """Options with prices of what is short, or none."""
    names = chance.choice([[], [], [], ["shed"], ["spill-reserve"], ["shed", "spill-reserve"]])
    return [f"--{name}={chance.choice([1, 10, 40, 200, 10**6])}" for name in names]


def answer_of_program(program, options, instance, certificate):
    ran = subprocess.run([program, "check", *options, instance, certificate], capture_output=True)
    text = (ran.stdout + ran.stderr).decode()
    return ran.returncode, PLACED.sub("instance: no JSON text within the limits", text).splitlines()


def answer_of_checker(options, instance, certificate):
    try:
        return 0, check.verdict([*options, instance, certificate])
    except check.Refused as refused:
        return refused.status, [str(refused)]


def kind_of(status, lines):
    return " ".join([str(status), *re.findall(r"accepted|infeasible|[CI][0-9]+|M[0-9]+|form|cut short|bytes|JSON", " ".join(lines))])


def compare(program, options, files, told):
    ours, theirs = answer_of_checker(options, *map(str, files)), answer_of_program(program, options, *files)
    told[kind_of(*theirs)] += 1
    if ours != theirs:
        kept = pathlib.Path(tempfile.mkdtemp(prefix="checkers-"))
        for file in files:
            (kept / file.name).write_bytes(file.read_bytes())
        print(f"DIFFER: {kept}: {' '.join(options)}: check.py {ours}, uc check {theirs}", flush=True)
    return ours == theirs


def main(program, count, seed):
    chance, told, same, all_pairs = random.Random(seed), collections.Counter(), 0, 0
    with contextlib.ExitStack() as stack:
        folder = pathlib.Path(stack.enter_context(tempfile.TemporaryDirectory()))
        program = search.built(folder) if program == "unproved" else pathlib.Path(program).resolve()
        instance, certificate = folder / "instance.json", folder / "made.cert"
        for _ in range(count):
            made, prices = json.dumps(random_instance(chance)), random_prices(chance)
            instance.write_text(made)
            words = ["--units", str(chance.choice([1, 5, 40])), "--gap", "0", *prices]
            subprocess.run([program, "solve", instance, "--cert", certificate, *words], capture_output=True)
            if not certificate.exists():
                continue
            found = certificate.read_text()
            texts = [(prices, made, found), (random_prices(chance), made, found)]
            texts += [(prices, made, changed_certificate(chance, found)) for _ in range(CHANGES)]
            texts += [(prices, changed_instance(chance, made), found) for _ in range(CHANGES)]
            exact = exact_certificate(chance, found)
            texts += [(prices, made, exact), *((prices, made, changed_certificate(chance, exact)) for _ in range(CHANGES))]
            if "claim bound" in exact:
                greatest = greatest_bound(prices, instance, certificate, exact)
                texts += [(prices, made, with_bound(exact, greatest + more)) for more in (0, 1)]
            for options, changed, written in texts:
                instance.write_text(changed)
                certificate.write_text(written)
                same += compare(program, options, (instance, certificate), told)
                all_pairs += 1
            certificate.unlink()
    for kind, times in sorted(told.items()):
        print(f"{times:6} {kind}")
    print(f"{same} of {all_pairs} answers are the same")


if __name__ == "__main__":
    if not 2 <= len(sys.argv) <= 4:
        raise SystemExit(__doc__)
    main(sys.argv[1], *(int(it) for it in (sys.argv[2:] + ["30", "1"][len(sys.argv) - 2:])))
