"""Whether a report and a certificate are of an instance, and of each other.

This keeps what can't be drawn, or would be drawn wrong, out of a picture: other units, cells outside a unit's range, hours whose
outputs don't add up to demand, hours whose costs don't add up to the cost. It is no proof that the schedule obeys all rules, nor that
the bound is one: `uc check` is.
"""
from __future__ import annotations

from typing import List, NoReturn, Optional, Tuple, Union

from .amounts import Watts, amount_text, gap_parts
from .certificate import Certificate, CertificateSchedule
from .costs import hourly_costs
from .instance import Instance, Renewable, Thermal
from .refusal import Refusal, shown
from .report import Cell, Outcome, RenewableRow, Report, Schedule, ShortageRow, Stopped, Stuck, ThermalRow
from .shortages import NO_PENALTY, Penalty, shortages


def check_report(instance: Instance, report: Report, penalty: Penalty = NO_PENALTY) -> None:
    """Refused where the report isn't one of this instance with these prices of what is short, with its line."""
    _check_sizes(instance, report)
    if report.stuck:
        _check_stuck(instance, report, report.stuck)
    if report.stopped:
        _check_stopped(instance, report, report.stopped)
    if report.windows is not None and not 1 <= report.windows <= instance.periods:
        _refuse(report, 2, f"{report.windows} windows, where the instance has {instance.periods} periods")
    if report.schedule:
        _check_schedule(instance, report, report.schedule, penalty)


def check_gap(report: Report, asked: int) -> None:
    """Refused where the outcome isn't that of the gap that was asked for, in parts per million."""
    if report.schedule and report.bound is not None:
        parts = gap_parts(report.schedule.cost, report.bound)
        is_within = parts is not None and parts <= asked
        if is_within != (report.outcome is Outcome.CLOSED):
            found = "none of a cost of 0" if parts is None else f"{parts} parts per million"
            _refuse(report, 2, f"{shown(report.outcome.value)}, where the gap is {found} and {asked} were asked for")


def check_certificate(instance: Instance, report: Report, certificate: Certificate) -> None:
    """Refused where the certificate isn't one of this instance and this report, with its line."""
    if report.outcome in (Outcome.ROLLED, Outcome.STOPPED):
        _refuse(certificate, None, "a certificate, where a report of `uc roll` has none")
    if certificate.sizes != (instance.periods, len(instance.thermal), len(instance.renewable)):
        _refuse(certificate, 2, "the sizes aren't those of the instance")
    if (certificate.bound is None) != (report.outcome is Outcome.INFEASIBLE) or certificate.bound != report.bound:
        _refuse(certificate, 3, "the claim isn't that of the report")
    ours, theirs = report.schedule, certificate.schedule
    if ((ours.cost, ours.denominator) if ours else None) != ((theirs.cost, theirs.denominator) if theirs else None):
        _refuse(certificate, 5 if any(certificate.penalty) else 4, "the schedule isn't that of the report")
    if ours and theirs:
        _check_thermal_rows(instance, certificate, ours, theirs)
        _check_renewable_rows(certificate, ours, theirs)
        _check_shortage_rows(instance, certificate, ours, theirs)


def _refuse(source: Union[Report, Certificate], line: Optional[int], what: str) -> NoReturn:
    raise Refusal(source.path, f"line {line}" if line else "", what)


def _check_sizes(instance: Instance, report: Report) -> None:
    for word, written, number in (
        ("periods", report.periods, instance.periods),
        ("thermal units", report.thermal_units, len(instance.thermal)),
        ("renewable units", report.renewable_units, len(instance.renewable)),
        ("rounded numbers", report.rounded, instance.rounded),
    ):
        if written != number:
            _refuse(report, 1, f"{written} {word}, where the instance has {number}")


def _check_stuck(instance: Instance, report: Report, stuck: Stuck) -> None:
    if not 1 <= stuck.period <= instance.periods:
        _refuse(report, stuck.line, f"the instance has no period {stuck.period}")
    if stuck.unit is not None and all(unit.name != stuck.unit for unit in instance.thermal):
        _refuse(report, stuck.line, f"the instance has no thermal unit {shown(stuck.unit)}")
    for word, written, numbers in (("demand", stuck.demand, instance.demand), ("need", stuck.need, instance.reserves)):
        if written is not None and written != numbers[stuck.period - 1]:
            _refuse(report, stuck.line, f"the {word} of the instance is {amount_text(numbers[stuck.period - 1])}")


def _check_stopped(instance: Instance, report: Report, stopped: Stopped) -> None:
    """Each window begins at least an hour behind the one before it."""
    if not 1 <= stopped.window <= stopped.first <= stopped.last <= instance.periods:
        _refuse(report, stopped.line, f"no window {stopped.window} of an instance of {instance.periods} periods has these")


def _check_schedule(instance: Instance, report: Report, schedule: Schedule, penalty: Penalty) -> None:
    if report.bound is not None and report.bound > schedule.cost:
        _refuse(report, 4, f"the bound is above the cost, {amount_text(schedule.cost)}")
    for g, row in enumerate(schedule.thermal):
        _check_thermal(report, instance.thermal[g], row)
    for w, other in enumerate(schedule.renewable):
        _check_renewable(report, instance.renewable[w], other)
    for word, row, price, most in (
        ("shed", schedule.shed, penalty[0], instance.demand),
        ("reserve-short", schedule.short, penalty[1], instance.reserves),
    ):
        _check_shortage(report, word, row, price, most)
    unserved, missing = shortages(schedule, instance.periods, penalty)
    for period in range(instance.periods):
        _check_hour(instance, report, schedule, period, (unserved.watts[period], missing.watts[period]))
    cost = hourly_costs(instance, schedule, penalty).total
    if cost != schedule.cost:
        _refuse(report, 3, f"the schedule costs {amount_text(cost)}")


def _check_name(report: Report, line: int, written: str, name: str) -> None:
    if written != name:
        _refuse(report, line, f"unit {shown(written)}, where the instance has {shown(name)}")


def _check_thermal(report: Report, unit: Thermal, row: ThermalRow) -> None:
    _check_name(report, row.line, row.name, unit.name)
    was_on = unit.is_on_before
    for period, cell in enumerate(row.cells):
        what = _cell_fault(unit, cell, was_on) if cell else None
        if what:
            _refuse(report, row.line, f"period {period + 1}: {what}")
        was_on = cell is not None


def _cell_fault(unit: Thermal, cell: Cell, was_on: bool) -> Optional[str]:
    """What is wrong with an on cell of a unit, if anything is."""
    if cell.output < unit.least:
        return f"output {amount_text(cell.output)} below the unit's minimum, {amount_text(unit.least)}"
    if cell.output > unit.greatest:
        return f"output {amount_text(cell.output)} above the unit's greatest, {amount_text(unit.greatest)}"
    if cell.output + cell.reserve > unit.maximum:
        return f"output and reserve above the unit's maximum, {amount_text(unit.maximum)}"
    if was_on and cell.category:
        return "a start of a unit that is on the hour before"
    if not was_on and not cell.category:
        return "a start without a category"
    if cell.category > len(unit.start_costs):
        return f"start category {cell.category} of a unit that has {len(unit.start_costs)}"
    return None


def _check_renewable(report: Report, unit: Renewable, row: RenewableRow) -> None:
    _check_name(report, row.line, row.name, unit.name)
    for period, (output, least, greatest) in enumerate(zip(row.outputs, unit.least, unit.greatest)):
        if not least <= output <= greatest:
            what = f"output {amount_text(output)} not from {amount_text(least)} to {amount_text(greatest)}"
            _refuse(report, row.line, f"period {period + 1}: {what}")


def _check_shortage(report: Report, word: str, row: Optional[ShortageRow], price: int, most: List[int]) -> None:
    """Refused where something is short without a price, or more than all; or where a line is missing that the price asks for."""
    if row is None:
        if price:
            _refuse(report, None, f"no line {word}, where that has a price of {price}")
        return
    if not price:
        _refuse(report, row.line, f"{word} without its price, which the certificate tells, or a word as --shed and --spill-reserve")
    for period, (watts, limit) in enumerate(zip(row.watts, most)):
        if not 0 <= watts <= max(limit, 0):
            what = f"{amount_text(watts)} not from {amount_text(0)} to {amount_text(max(limit, 0))}"
            _refuse(report, row.line, f"period {period + 1}: {what}")


def _check_hour(instance: Instance, report: Report, schedule: Schedule, period: int, short: Tuple[Watts, Watts]) -> None:
    cells = [row.cells[period] for row in schedule.thermal]
    output = sum(cell.output for cell in cells if cell) + sum(row.outputs[period] for row in schedule.renewable) + short[0]
    if output != instance.demand[period]:
        what = f"outputs add up to {amount_text(output)}, where demand is {amount_text(instance.demand[period])}"
        _refuse(report, None, f"period {period + 1}: {what}")
    reserve = sum(cell.reserve for cell in cells if cell) + short[1]
    if reserve < instance.reserves[period]:
        what = f"reserves add up to {amount_text(reserve)}, where {amount_text(instance.reserves[period])} is needed"
        _refuse(report, None, f"period {period + 1}: {what}")


def _check_thermal_rows(instance: Instance, certificate: Certificate, ours: Schedule, theirs: CertificateSchedule) -> None:
    for g, (unit, row, cells) in enumerate(zip(instance.thermal, ours.thermal, theirs.thermal)):
        for period, (cell, written) in enumerate(zip(row.cells, cells)):
            wanted = (cell.output - unit.least, cell.reserve, cell.category) if cell else None
            if written != wanted:
                _refuse(certificate, theirs.line + g, f"the cell of period {period + 1} isn't that of the report")


def _check_renewable_rows(certificate: Certificate, ours: Schedule, theirs: CertificateSchedule) -> None:
    first = theirs.line + len(theirs.thermal)
    for w, (row, outputs) in enumerate(zip(ours.renewable, theirs.renewable)):
        for period, (output, written) in enumerate(zip(row.outputs, outputs)):
            if output != written:
                _refuse(certificate, first + w, f"the output of period {period + 1} isn't that of the report")


def _check_shortage_rows(instance: Instance, certificate: Certificate, ours: Schedule, theirs: CertificateSchedule) -> None:
    first = theirs.line + len(theirs.thermal) + len(theirs.renewable)
    kinds = shortages(ours, instance.periods, certificate.penalty)
    for place, (shortage, row) in enumerate(zip(kinds, theirs.shortages)):
        for period, (watts, written) in enumerate(zip(shortage.watts, row)):
            if watts != written:
                _refuse(certificate, first + place, f"the {shortage.name} of period {period + 1} isn't that of the report")
