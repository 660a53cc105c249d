#!/usr/bin/env python3
"""Makes the manual's pages out of the header and the examples: pages.py VERSION FOLDER.

The header's groups, each below a line `---- name: title ----`, are a page each, with the example of the same name; every call has a page
that leads to its group's. What stands at the header's top, and its codes, is chordvenus(3). The lister's page stands beside this file.
"""
import pathlib
import re
import sys

ROOT = pathlib.Path(__file__).resolve().parent.parent.parent
GROUP = re.compile(r"^/\* ---- ([\w-]+): (.*) ---- \*/$", re.M)
DECLARED = re.compile(r"^CV_NODISCARD (\w+ )(cv2?_\w+)\((.*)\);$|^static inline (const \w+ \*)(cv2?_\w+)\((.*)\)$", re.M)
COMMENT = re.compile(r"/\*(.*?)\*/", re.S)
LABEL = re.compile(r"^(Codes, writes, done|Codes|Writes|Done): *|^([A-Z]\w+) {2,}")


def escaped(text):
    text = re.sub(r"\s*\(§[^)]*\)", "", text).replace("\\", r"\e").replace("-", r"\-")
    return re.sub(r"^([.'])", r"\&\1", text, flags=re.M)


def lines_of(comment):
    return [re.sub(r"^ ?\* ?", "", line).rstrip() for line in comment.strip().splitlines()]


def prose(comment):
    """A comment as roff: paragraphs, and an entry for each label."""
    page, fresh = [], True
    for line in lines_of(comment):
        label = LABEL.match(line)
        if label:
            page += [".TP", f".B {escaped(label[1] or label[2])}"]
        elif fresh and line and not line.startswith(" "):
            page.append(".PP")
        fresh = not line
        rest = escaped(line[label.end():] if label else line).strip()
        if rest:
            page.append(rest)
    return page


def title(name, version):
    return [f'.TH {name.upper()} 3 "" "chordvenus {version}" "Chordvenus"', ".SH NAME"]


def synopsis(calls):
    """The declarations, an argument to a line where they are long."""
    page = [".SH SYNOPSIS", ".nf", ".B #include <chordvenus.h>"]
    for kind, name, arguments in calls:
        parts = arguments.split(", ")
        if len(arguments) > 60:
            lines = [f"{kind}{name}({parts[0]},", *(f"        {part}," for part in parts[1:-1]), f"        {parts[-1]});"]
        else:
            lines = [f"{kind}{name}({arguments});"]
        page += [".PP", *(f'.B "{escaped(line)}"' for line in lines)]
    return [*page, ".fi", ".PP", "Link with", r".B \-lchordvenus", r"on x86\-64 Linux; pkg\-config has it as", ".BR chordvenus ."]


def group_page(name, about, body, version):
    calls = [(a or d, b or e, c or f) for a, b, c, d, e, f in DECLARED.findall(body)]
    page = [*title(name, version), f"{', '.join(call for _, call, _ in calls)} \\- {escaped(about)}", *synopsis(calls), ".SH DESCRIPTION"]
    for block in re.split(r"(?=^/\*)", body, flags=re.M):
        named = [b or e for _, b, _, _, e, _ in DECLARED.findall(block)]
        if named:
            page += [f".SS {', '.join(named)}", *prose(COMMENT.search(block)[1])]
    example = ROOT / f"examples/calls/{name.removeprefix('chordvenus-')}.c"
    page += [".SH EXAMPLE", ".nf", escaped(example.read_text()).rstrip(), ".fi", ".PP", "It prints", ".PP", ".nf", escaped(example.with_suffix(".expected").read_text()).rstrip(), ".fi"]
    return page + [".SH SEE ALSO", ".BR chordvenus (3)"], [call for _, call, _ in calls]


def main_page(header, groups, version):
    """The header's top, its codes, its structs and numbers."""
    top = re.sub(r" Numbers such as §.*?\.md\.", "", COMMENT.search(header)[1], flags=re.S)
    page = [*title("chordvenus", version), r"chordvenus \- from wishes to plans for a switch, every function proved", ".SH DESCRIPTION", *prose("\n".join(top.strip().splitlines()[1:]))]
    codes = re.search(r"/\* cv_answer\.code.*?^enum \{(.*?)^\};", header, re.S | re.M)[1]
    page += [".SH CODES", "When each is given, and what the place then is."]
    for name, number, meaning in re.findall(r"^    (CV_\w+) = (\d+),? +/\* (.*?) \*/", codes, re.M | re.S):
        page += [".TP", f".B {number} {name}", escaped(re.sub(r"\s+", " ", meaning))]
    limits = re.findall(r"^enum \{\n    CV2?_MOST_PORTS.*?^\};$|^#define CV2?_\w+_ROOM\([^\n]*$|^#define CV2?_STACK_\w+ \d+$", header, re.S | re.M)
    structs = re.findall(r"^/\* [^*]*\*/\ntypedef struct \{.*?^\} \w+;$", header, re.S | re.M)
    for head, parts in ("STRUCTURES", structs), ("NUMBERS", limits):
        page += [f".SH {head}", ".nf", *(escaped(part) for part in parts), ".fi"]
    others = [*(f"{name} (3)" for name in groups), "chordvenus-lister (1)"]
    return [*page, ".SH SEE ALSO", ",\n".join(f".BR {escaped(other)}" for other in others)]


def main():
    version, folder = sys.argv[1], pathlib.Path(sys.argv[2])
    header = (ROOT / "include/chordvenus.h").read_text()
    man3, man1 = folder / "man3", folder / "man1"
    man3.mkdir(parents=True, exist_ok=True)
    man1.mkdir(parents=True, exist_ok=True)
    parts = GROUP.split(header)
    groups = list(zip(parts[1::3], parts[2::3], parts[3::3]))
    for name, about, body in groups:
        page, calls = group_page(name, about, body, version)
        (man3 / f"{name}.3").write_text("\n".join(page) + "\n")
        for call in calls:
            (man3 / f"{call}.3").write_text(f".so man3/{name}.3\n")
    (man3 / "chordvenus.3").write_text("\n".join(main_page(header, [name for name, _, _ in groups], version)) + "\n")
    (man1 / "chordvenus-lister.1").write_text((ROOT / "bindings/man/chordvenus-lister.1").read_text().replace("@VERSION@", version))


main()
