"""The whole report as JSON, for programs."""
from __future__ import annotations

import dataclasses
from typing import Any, Dict

from .outcomes import Ways
from .report import Check, Report, script_of
from .values import Values

VERSION = 1


def json_report(report: Report) -> Dict[str, Any]:
    """What `explore --json` prints: the report, and for each outcome all that expressions can name."""
    return {
        "report": VERSION, "script": report.plan.text, "parts": report.plan.parts, "orders": report.plan.orders,
        "judged": report.orders, "is_whole": report.is_whole, "is_good": report.is_good,
        "outcomes": [{**_ways(report, ways), **_values(values)} for (_, ways), values in
                     zip(report.found, report.values)],
        "groups": [{"outcomes": [it + 1 for it in group.members], "orders": group.ways.count,
                    "rows": report.rows_of(group)} for group in report.groups],
        "same": report.same(),
        "checks": [_check(report, it) for it in report.checks],
    }


def _ways(report: Report, ways: Ways) -> Dict[str, Any]:
    """How many orders there are, and the events of one by their names."""
    return {"orders": ways.count, "order": [it.name for it in report.plan.steps_of(ways.order)],
            "example": "".join(f"{it}\n" for it in script_of(report.plan, ways.order))}


def _values(values: Values) -> Dict[str, Any]:
    """The named answers of an outcome."""
    reservations = {str(nsid): {
        "rtype": int(it.rtype), "name": it.rtype.text, "holder": "all" if it.is_held_by_all else it.holder,
        "generation": it.generation, "persists": it.persists, "protection": int(it.protection),
        "registrants": {str(host): key for host, key in it.registrants.items()},
    } for nsid, it in values.reservations.items()}
    return {"answers": {name: dataclasses.asdict(it) for name, it in values.answers.items()},
            "reservations": reservations, "attached": values.attached,
            "blocks": {f"{nsid}:{block}": data.rstrip(b"\0").hex() for (nsid, block), data in values.blocks.items()}}


def _check(report: Report, check: Check) -> Dict[str, Any]:
    """Whether a check is met, or an order that breaks it."""
    broken = report.broken(check)
    example = "".join(f"{it}\n" for it in report.example(check)) if broken else None
    return {"check": check.name, "is_met": not broken, "fails_in": sum(ways.count for _, ways in broken),
            "counterexample": example}
