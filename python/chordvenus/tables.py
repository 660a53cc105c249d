"""Plans, schedules and counts as text: tables for people, CSV and JSON for other programs, and the lister's lines."""
from __future__ import annotations

import csv
import io
import json
from typing import Any, Dict, List, Optional, Sequence

from .calls import Rescued
from .demands import Ports
from .plans import Plan
from .schedules import Schedule


def lines(of: Plan) -> str:
    """A plan as the lister prints it.

    >>> print(lines(plan(cells([[3, 0], [1, 0]]), "quick")), end="")
    ports 2 longest 4 records 4 total 4 empty 0
    1 0 -
    1 - 0
    1 0 -
    1 0 -
    """
    shown = [counts_line(of)]
    shown += [" ".join([str(hold), *("-" if j is None else str(j) for j in outputs)]) for hold, outputs in of]
    return "".join(line + "\n" for line in shown)


def counts_line(of: Plan) -> str:
    """What is counted of a plan, in one line; what is not known of it is left out."""
    counts = {"ports": of.ports, "longest": of.longest, "records": of.records, "total": of.total, "empty": of.empty}
    return " ".join(f"{name} {number}" for name, number in counts.items() if number is not None)


def plan_table(of: Plan, names: Optional[Ports] = None) -> str:
    """A plan as a table: a line for each record with its hold, and a column for each input with the output it has.

    >>> print(plan_table(plan(cells([[2, 1], [1, 2]]))), end="")
    ports 2 longest 3 records 2 total 3 empty 0
    record  hold  0  1
         0     2  0  1
         1     1  1  0
    """
    names = of.names if names is None else names
    heads = ["record", "hold", *(names.input(i) for i in range(of.ports))]
    rows = [[str(k), str(s.hold), *("-" if j is None else names.output(j) for j in s.outputs)] for k, s in enumerate(of)]
    return counts_line(of) + "\n" + table(heads, rows)


def plan_csv(of: Plan, names: Optional[Ports] = None) -> str:
    """A plan as CSV: record, first slot, hold, and the output of each input, empty where it is idle."""
    names = of.names if names is None else names
    rows, at = [], 0
    for k, (hold, outputs) in enumerate(of):
        rows.append([k, at, hold, *("" if j is None else names.output(j) for j in outputs)])
        at += hold
    return comma_lines(["record", "start", "hold", *(names.input(i) for i in range(of.ports))], rows)


def plan_json(of: Plan, names: Optional[Ports] = None) -> str:
    """A plan as JSON; idle inputs and what is not known are null."""
    return as_json({**plan_counts(of, names), "settings": [{"hold": hold, "outputs": list(outputs)} for hold, outputs in of]})


def plan_counts(of: Plan, names: Optional[Ports] = None) -> Dict[str, Any]:
    """What is known of a plan but for its settings."""
    names = of.names if names is None else names
    counts: Dict[str, Any] = {"ports": of.ports, "edition": of.edition, "longest": of.longest, "records": of.records}
    counts.update(total=of.total, empty=of.empty)
    if names.inputs or names.outputs:
        counts["inputs"] = [names.input(i) for i in range(of.ports)]
        counts["outputs"] = [names.output(j) for j in range(of.ports)]
    return counts


def schedule_table(of: Schedule) -> str:
    """A schedule as a table, a line for each task."""
    rows = [[of.names.input(t.input), of.names.output(t.output), str(t.start), str(t.end)] for t in of]
    first = f"ports {of.ports} tasks {of.records} end {of.total}\n"
    return first + table(["input", "output", "start", "end"], rows)


def schedule_csv(of: Schedule) -> str:
    """A schedule as CSV, a line for each task."""
    rows = [[of.names.input(t.input), of.names.output(t.output), t.start, t.end] for t in of]
    return comma_lines(["input", "output", "start", "end"], rows)


def schedule_json(of: Schedule) -> str:
    """A schedule as JSON."""
    tasks = [task._asdict() for task in of]
    return as_json({"ports": of.ports, "records": of.records, "total": of.total, "switching": of.switching, "tasks": tasks})


def rescued_table(of: Rescued) -> str:
    """What was dropped and added, and then the plan."""
    rows = [[str(d.record), str(d.reason), d.words] for d in of.dropped]
    dropped = table(["dropped", "reason", ""], rows) + "\n" if rows else ""
    return f"dropped {len(of.dropped)} added {of.added}\n{dropped}{plan_table(of.plan)}"


def rescued_json(of: Rescued) -> str:
    """The same as JSON."""
    settings = [{"hold": hold, "outputs": list(outputs)} for hold, outputs in of.plan]
    dropped = [d._asdict() for d in of.dropped]
    return as_json({**plan_counts(of.plan), "added": of.added, "dropped": dropped, "settings": settings})


def table(heads: Sequence[str], rows: Sequence[Sequence[str]]) -> str:
    """Columns as wide as their widest field; those whose fields are all numbers or dashes stand to the right."""
    columns = list(zip(heads, *rows))
    wide = [max(len(field) for field in column) for column in columns]
    right = [all(field == "-" or field.replace(",", "").isdigit() for field in column[1:]) for column in columns]
    shown = []
    for row in [heads, *rows]:
        fields = [field.rjust(w) if r else field.ljust(w) for field, w, r in zip(row, wide, right)]
        shown.append("  ".join(fields).rstrip() + "\n")
    return "".join(shown)


def comma_lines(heads: Sequence[Any], rows: Sequence[Sequence[Any]]) -> str:
    """CSV with its first line, quoted where need be."""
    text = io.StringIO()
    writer = csv.writer(text, lineterminator="\n")
    writer.writerow(heads)
    writer.writerows(rows)
    return text.getvalue()


def words_and_numbers(counts: Dict[str, Any]) -> str:
    """A word and its number, one after the other on a line."""
    return " ".join(f"{name} {number}" for name, number in counts.items()) + "\n"


def as_json(value: Any) -> str:
    """JSON that people can read too."""
    return json.dumps(value, indent=1, ensure_ascii=False) + "\n"


def dropped_csv(of: Rescued) -> str:
    """The dropped records as CSV."""
    rows: List[List[Any]] = [[d.record, d.reason, d.words] for d in of.dropped]
    return comma_lines(["record", "reason", "words"], rows)
