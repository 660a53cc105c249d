"""The command: wishes and plans from files or standard input, to tables, CSV, JSON, pictures or records."""
from __future__ import annotations

import argparse
import os
import sys
from typing import Any, Callable, Dict, List, NamedTuple, Optional, Sequence

from . import _library as lib
from . import calls, pictures, schedules, tables, texts
from .demands import Demand, Ports
from .plans import Plan
from .refusals import Refused

DONE, REFUSED, USAGE, INTERRUPTED = 0, 1, 2, 130
SUFFIXES = {".svg": "svg", ".csv": "csv", ".json": "json", ".txt": "table"}

ABOUT = """Plans for a switch of up to 128 inputs and outputs, by a library whose every function is proved.

A wish is a line of input, output and slots, parted by blanks, commas, semicolons or tabs, with or without a first line that
names the columns. Ports are numbers from 0 on, or names. A number of slots that is no binary32 is rounded up to the next one,
never down, since a wish must not shrink. A wish list of 8-byte records is taken too. - stands for standard input.

Exit status: 0 done; 1 refused, in words on standard error; 2 wrong usage."""


class Stop(Exception):
    """Words for standard error, and exit status 1."""


class Misused(Exception):
    """Words for standard error, and exit status 2."""


class Shown(NamedTuple):
    """What a command has to show: for each form of output, how it is made."""

    forms: Dict[str, Callable[[], Any]]
    notes: Sequence[str] = ()


def main(argv: Optional[Sequence[str]] = None) -> int:
    """Runs the command with these words, or with the program's own, and gives its exit status."""
    try:
        arguments = _parser().parse_args(argv)
        shown = arguments.run(arguments)
        for note in shown.notes:
            _say(f"note: {note}")
        _write(arguments, shown)
    except SystemExit as stop:  # argparse has said what is wrong, or has shown its help
        return stop.code if isinstance(stop.code, int) else USAGE
    except KeyboardInterrupt:
        return INTERRUPTED
    except BrokenPipeError:
        _forget_standard_output()
        return REFUSED
    except Refused as refused:
        _say(f"refused (code {refused.code}): {refused}")
        return REFUSED
    except Misused as misused:
        _say(f"{misused}\nchordvenus: see chordvenus {arguments.name} --help")
        return USAGE
    except Exception as error:
        _say(_in_words(error))
        return REFUSED
    return DONE


def _in_words(error: Exception) -> str:
    """What a reader of standard error needs to know of anything that went wrong; never where in this module."""
    if isinstance(error, OSError) and not isinstance(error, lib.LibraryMissing):
        return f"{error.filename or 'standard output'}: {error.strerror or error}"
    if isinstance(error, MemoryError):
        return "there is not enough memory for this"
    if isinstance(error, (Stop, ValueError, lib.LibraryMissing, lib.CallMissing)):
        return str(error)
    return f"a fault of this command, please report it: {type(error).__name__}: {error}"


def _say(words: str) -> None:
    print(f"chordvenus: {words}", file=sys.stderr)


def _forget_standard_output() -> None:
    """Nobody reads any longer: what is left to be written goes nowhere, without a word."""
    os.dup2(os.open(os.devnull, os.O_WRONLY), 1)


# ---- In and out


def _read(name: str) -> bytes:
    if name != "-":
        with open(name, "rb") as file:
            return file.read()
    if sys.stdin.isatty():
        _say("reading from the keyboard; Ctrl-D ends it")
    return sys.stdin.buffer.read()


def _wishes(arguments: Any) -> texts.Read:
    """The wishes that are named, refusals with the name of the file, the line and the column."""
    name = arguments.wishes
    data = _read(name)
    if not data and arguments.ports is None:
        raise Stop(f"{_called(name)}: it is empty: there is no wish, and --ports does not say how many ports there are")
    try:
        return texts.read(data, arguments.ports, getattr(arguments, "edition", None), arguments.given)
    except texts.BadLine as bad:
        raise Stop(f"{_called(name)}:{bad.line}:{bad.column}: {bad.words}") from None
    except Refused as refused:
        raise _named(refused, name) from None


def _plan(arguments: Any, name: str) -> Plan:
    """The plan that is named, every record judged."""
    data = _read(name)
    if len(data) < 4 and arguments.ports is None:
        raise Stop(f"{_called(name)}: it is empty: a plan of no records does not say how many ports it is for; --ports does")
    try:
        return Plan.from_bytes(data, arguments.ports)
    except Refused as refused:
        raise _named(refused, name) from None


def _called(name: str) -> str:
    return "standard input" if name == "-" else name


def _named(refused: Refused, name: str) -> Stop:
    """A refusal with the file that it is about and, of a text, the line and the column."""
    place = "" if refused.line is None else f":{refused.line}:{refused.column}"
    return Stop(f"{_called(name)}{place}: refused (code {refused.code}): {refused}")


def _write(arguments: Any, shown: Shown) -> None:
    """What is to be shown, in the form that is asked for, by name or by the file's suffix."""
    form = arguments.out
    if form is None:
        suffix = os.path.splitext(arguments.output or "")[1]
        kept = "records" if "records" in shown.forms else "table"
        form = "table" if arguments.output is None else SUFFIXES.get(suffix, kept)
    if form not in shown.forms:
        raise Misused(f"{arguments.name} shows {', '.join(shown.forms)}, and no {form}")
    if form == "records" and arguments.output is None and sys.stdout.isatty():
        raise Misused("records are bytes, not text: give -o FILE")
    made = shown.forms[form]()
    data = made if isinstance(made, bytes) else made.encode("utf-8", "surrogateescape")
    if arguments.output is not None:
        with open(arguments.output, "wb") as file:
            file.write(data)
        return
    sys.stdout.flush()
    sys.stdout.buffer.write(data)
    sys.stdout.buffer.flush()


def _plan_forms(of: Plan, names: Optional[Ports] = None, asked: Optional[Demand] = None) -> Dict[str, Callable[[], Any]]:
    return {
        "table": lambda: tables.plan_table(of, names),
        "lines": lambda: tables.lines(of),
        "csv": lambda: tables.plan_csv(of, names),
        "json": lambda: tables.plan_json(of, names),
        "svg": lambda: pictures.picture(of, asked),
        "records": lambda: of.data,
    }


def _counts_forms(counts: Dict[str, Any]) -> Dict[str, Callable[[], Any]]:
    return {
        "table": lambda: tables.words_and_numbers(counts),
        "csv": lambda: tables.comma_lines(list(counts), [list(counts.values())]),
        "json": lambda: tables.as_json(counts),
    }


# ---- The commands


def _not_both(arguments: Any) -> None:
    if arguments.wishes == "-" and arguments.plan == "-":
        raise Misused("wishes and plan cannot both come from standard input")


def _run_plan(arguments: Any) -> Shown:
    if (arguments.method == "quiet") != (arguments.limit is not None):
        raise Misused("--limit goes with --method quiet, and only there")
    read = _wishes(arguments)
    of = calls.plan(read.demand, arguments.method, limit=arguments.limit, edition=arguments.edition)
    return Shown(_plan_forms(of), read.notes)


def _run_check(arguments: Any) -> Shown:
    _not_both(arguments)
    read = _wishes(arguments)
    try:
        counts = calls.check(read.demand, _read(arguments.plan), edition=arguments.edition)
    except Refused as refused:
        raise _named(refused, arguments.plan) from None
    return Shown(_counts_forms({"ports": read.demand.ports, **counts._asdict()}), read.notes)


def _run_show(arguments: Any) -> Shown:
    of = _plan(arguments, arguments.plan)
    if arguments.wishes is None:
        return Shown(_plan_forms(of))
    read = _wishes(arguments)
    counts = calls.check(read.demand, of)
    known = Plan(of.ports, of.edition, of.data, of.total, read.demand, counts.longest, counts.empty)
    return Shown(_plan_forms(known), read.notes)


def _run_join(arguments: Any) -> Shown:
    return Shown(_plan_forms(calls.join(_plan(arguments, arguments.plan))))


def _run_length(arguments: Any) -> Shown:
    of = _plan(arguments, arguments.plan)
    counts = {"length": calls.length(of, arguments.switching), "records": of.records, "total": of.total}
    return Shown(_counts_forms(counts))


def _run_report(arguments: Any) -> Shown:
    of = _plan(arguments, arguments.plan)
    numbers = [int(number) for number in calls.report(of)]
    limit = arguments.limit
    over = ["over" if limit is not None and number > limit else "" for number in numbers]
    heads = ["record", "hold", "inputs on one wavelength"] + ([] if limit is None else [f"limit {limit}"])
    rows = [[k, of[k].hold, number] + ([] if limit is None else [over[k]]) for k, number in enumerate(numbers)]
    worst = f"ports {of.ports} records {of.records} total {of.total} worst {max(numbers, default=0)}\n"
    return Shown({
        "table": lambda: worst + tables.table(heads, [[str(field) for field in row] for row in rows]),
        "csv": lambda: tables.comma_lines(heads, rows),
        "json": lambda: tables.as_json({"ports": of.ports, "limit": limit, "records": of.records, "total": of.total, "report": numbers}),
        "svg": lambda: pictures.report_picture(of, limit),
    })


def _run_rescue(arguments: Any) -> Shown:
    _not_both(arguments)
    read = _wishes(arguments)
    made = calls.rescue(read.demand, _read(arguments.plan))
    notes = [f"record {d.record} is dropped: {d.words}" for d in made.dropped]
    forms = {**_plan_forms(made.plan), "table": lambda: tables.rescued_table(made), "json": lambda: tables.rescued_json(made)}
    forms["dropped"] = lambda: tables.dropped_csv(made)
    return Shown(forms, [*read.notes, *notes])


def _run_move(arguments: Any) -> Shown:
    return Shown(_plan_forms(calls.move(_plan(arguments, arguments.plan), arguments.to)))


def _run_shop(arguments: Any) -> Shown:
    read = _wishes(arguments)
    of = schedules.shop(read.demand, arguments.switching)
    return Shown({
        "table": lambda: tables.schedule_table(of),
        "csv": lambda: tables.schedule_csv(of),
        "json": lambda: tables.schedule_json(of),
        "svg": lambda: pictures.picture(of),
        "records": lambda: of.data,
    }, read.notes)  # fmt: skip


def _run_compare(arguments: Any) -> Shown:
    read = _wishes(arguments)
    rows = compared(read.demand, arguments.switching, arguments.limit or [1])
    d = read.demand
    first = f"ports {d.ports} longest {d.longest} asked {d.asked} switching {arguments.switching}\n"
    heads = ["", "method", "records", "total", "length", "empty", "worst wavelength"]
    keys = ["records", "total", "length", "empty", "worst"]
    return Shown({
        "table": lambda: first + tables.table(heads, [["*" if r["shortest"] else "", r["method"], *_numbers(r, keys)] for r in rows])
        + "* shortest" + "".join(f"\n{r['method']}: {r['refused']}" for r in rows if r["refused"]) + "\n",
        "csv": lambda: tables.comma_lines(["method", *keys, "shortest", "refused"], [_values(r, ["method", *keys, "shortest", "refused"]) for r in rows]),
        "json": lambda: tables.as_json({"ports": d.ports, "longest": d.longest, "asked": d.asked, "switching": arguments.switching, "methods": rows}),
    }, read.notes)  # fmt: skip


def _numbers(row: Dict[str, Any], keys: List[str]) -> List[str]:
    return ["-" if row[key] is None else str(row[key]) for key in keys]


def _values(row: Dict[str, Any], keys: List[str]) -> List[Any]:
    return ["" if row[key] is None else row[key] for key in keys]


def compared(asked: Demand, switching: int, limits: Sequence[int]) -> List[Dict[str, Any]]:
    """For each method what its plan of a demand comes to: its records, total, length, empty slots and worst wavelength, or why
    there is none; and whether none is shorter.

    >>> [(row["method"], row["length"]) for row in compared(cells([[2, 1], [1, 2]]), 10, []) if row["shortest"]]
    [('exact', 23), ('doubled', 23), ('grating', 23)]
    """
    ways: List[Any] = [(method, None) for method in calls.METHODS if method != "quiet"]
    ways += [("quiet", limit) for limit in limits]
    rows = [_compared_one(asked, switching, method, limit) for method, limit in ways]
    least = min((row["length"] for row in rows if row["length"] is not None), default=None)
    for row in rows:
        row["shortest"] = row["length"] is not None and row["length"] == least
    return rows


def _compared_one(asked: Demand, switching: int, method: str, limit: Optional[int]) -> Dict[str, Any]:
    row: Dict[str, Any] = {"method": method if limit is None else f"{method} {limit}"}
    row.update(records=None, total=None, length=None, empty=None, worst=None, shortest=False, refused=None)
    try:
        of = calls.plan(asked, method, limit=limit)
    except (Refused, lib.CallMissing) as why:
        row["refused"] = str(why)
        return row
    row.update(records=of.records, total=of.total, length=calls.length(of, switching), empty=of.empty)
    if of.edition == 1:
        row["worst"] = max((int(number) for number in calls.report(of)), default=0)
    return row


# ---- Usage


def _parser() -> argparse.ArgumentParser:
    parser = argparse.ArgumentParser(prog="chordvenus", description=ABOUT, formatter_class=argparse.RawDescriptionHelpFormatter)
    commands = parser.add_subparsers(metavar="COMMAND", required=True)
    for name, run, takes, about, example in _COMMANDS:
        command = commands.add_parser(
            name, help=about, description=about[0].upper() + about[1:] + ".", epilog=f"example:\n  {example}",
            formatter_class=argparse.RawDescriptionHelpFormatter,
        )  # fmt: skip
        command.set_defaults(run=run, name=name, ports=None)
        for option in takes:
            _OPTIONS[option](command)
        _out(command)
    return parser


def _whole(bits: int) -> Callable[[str], int]:
    def whole(text: str) -> int:
        if not (text.isascii() and text.isdecimal()) or len(text) > 20 or int(text) >= 1 << bits:
            raise argparse.ArgumentTypeError(f"{text!r} is no whole number from 0 to {(1 << bits) - 1:,}")
        return int(text)

    return whole


def _out(command: argparse.ArgumentParser) -> None:
    forms = ("table", "lines", "csv", "json", "svg", "records", "dropped")
    command.add_argument("-o", "--output", metavar="FILE", help="write to a file; its suffix .svg, .csv, .json or .txt says the form, any other keeps records")
    command.add_argument("--out", choices=forms, metavar="FORM", help="table (the default), lines as the lister prints them, csv, json, svg or records")


def _wishes_options(command: argparse.ArgumentParser) -> None:
    command.add_argument("--ports", type=_whole(64), metavar="N", help="the number of ports; else the largest that is named and one more")
    command.add_argument("--in", dest="given", choices=texts.FORMS, default="auto", help="text lines or a wish list of 8-byte records; known by its bytes unless given")


def _optional_wishes(command: argparse.ArgumentParser) -> None:
    command.add_argument("wishes", nargs="?", default="-", metavar="WISHES", help="a file of wishes; standard input where none is named")
    _wishes_options(command)


def _optional_plan(command: argparse.ArgumentParser) -> None:
    command.add_argument("plan", nargs="?", default="-", metavar="PLAN", help="a file of plan records; standard input where none is named")


def _plan_ports(command: argparse.ArgumentParser) -> None:
    command.add_argument("--ports", type=_whole(64), metavar="N", help="the number of ports; else the first record's")


def _both(command: argparse.ArgumentParser) -> None:
    command.add_argument("wishes", metavar="WISHES", help="a file of wishes, or -")
    command.add_argument("plan", metavar="PLAN", help="a file of plan records, or -")
    _wishes_options(command)


def _shown_wishes(command: argparse.ArgumentParser) -> None:
    command.add_argument("--wishes", metavar="FILE", help="the wishes that the plan is for: names the ports and shows what is empty")
    command.add_argument("--in", dest="given", choices=texts.FORMS, default="auto", help="how the wishes are given")


_OPTIONS: Dict[str, Callable[[argparse.ArgumentParser], Any]] = {
    "wishes": _optional_wishes,
    "plan": _optional_plan,
    "both": _both,
    "ports": _plan_ports,
    "shown": _shown_wishes,
    "method": lambda c: c.add_argument("--method", choices=calls.METHODS, default="exact", help="how it is planned (exact)"),
    "limit": lambda c: c.add_argument("--limit", type=_whole(64), metavar="L", help="the most inputs on one wavelength"),
    "limits": lambda c: c.add_argument("--limit", type=_whole(64), action="append", metavar="L", help="of a quiet plan; may be given more than once (1)"),
    "edition": lambda c: c.add_argument("--edition", choices=("first", "second"), help="of the plan; first for up to 64 ports and else second"),
    "switching": lambda c: c.add_argument("-d", "--switching", type=_whole(16), required=True, metavar="D", help="the slots that switching takes"),
    "to": lambda c: c.add_argument("--to", choices=("first", "second"), help="the edition to move to; the other one where none is named"),
}

_COMMANDS = [
    ("plan", _run_plan, ("wishes", "method", "limit", "edition"), "plan a demand", "chordvenus plan batch.csv --method doubled -o night.plan"),
    ("check", _run_check, ("both", "edition"), "check that a plan covers a demand", "chordvenus check batch.csv night.plan"),
    ("show", _run_show, ("plan", "ports", "shown"), "show a plan", "chordvenus show night.plan --wishes batch.csv -o night.svg"),
    ("join", _run_join, ("plan", "ports"), "join equal settings of a plan", "chordvenus join night.plan -o joined.plan"),
    ("length", _run_length, ("plan", "ports", "switching"), "tell the length of a plan", "chordvenus length night.plan -d 10"),
    ("report", _run_report, ("plan", "ports", "limit"), "report what a plan does to the wavelengths", "chordvenus report night.plan --limit 2 -o night.svg"),
    ("rescue", _run_rescue, ("both",), "rescue a damaged plan", "chordvenus rescue batch.csv damaged.plan -o rescued.plan"),
    ("move", _run_move, ("plan", "ports", "to"), "move a plan to the other edition", "chordvenus move night.plan --to second -o larger.plan"),
    ("shop", _run_shop, ("wishes", "switching"), "schedule ports that move on their own", "chordvenus shop batch.csv -d 3 -o night.svg"),
    ("compare", _run_compare, ("wishes", "switching", "limits"), "compare all methods on one demand", "chordvenus compare batch.csv -d 10 --limit 2"),
]
