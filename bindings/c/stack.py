#!/usr/bin/env python3
"""Holds the header's figures for the stack against the archive's instructions: stack.py ARCHIVE HEADER.

What a function keeps on the stack is read off its instructions: at each place, the bytes between the stack pointer and the caller's.
A call needs what the deepest chain of functions below it keeps, return addresses with it. Functions that call each other in a circle
are the search for a setting, which goes round at most once for each port. Functions of the C library count as their return address
alone, as the header says. Prints each call's need beside the header's figure, and fails where a figure is too small.
"""
import pathlib
import re
import shutil
import subprocess
import sys

ROUNDS = {"cv_": 64, "cv2_": 128}  # CV_MOST_PORTS, and the second edition's


def functions(archive):
    """The instructions of each function: address, words, and the name that a relocation puts in."""
    objdump = shutil.which("x86_64-linux-gnu-objdump") or "objdump"
    told = subprocess.run([objdump, "-dr", "--no-show-raw-insn", archive], capture_output=True, text=True, check=True).stdout
    found = {}
    for line in told.splitlines():
        if head := re.match(r"^[0-9a-f]+ <(.+)>:$", line):
            code = found.setdefault(head[1], [])
        elif at := re.match(r"^ *([0-9a-f]+):\t([^R].*)$", line):
            code.append([int(at[1], 16), at[2].strip(), None])
        elif into := re.match(r"^\s+[0-9a-f]+: R_\S+\t(?:\.text\.)?(.+?)[+-]0x[0-9a-f]+$", line):
            code[-1][2] = into[1]
    return found


def moved(words, before):
    """By how much an instruction lowers the stack pointer. A loop that lowers it step by step keeps in r11 where it is to end: what r11 is
    lowered by counts, and the steps do not."""
    if by := re.match(r"sub +\$(0x[0-9a-f]+),%r11$", words):
        return int(by[1], 16) if re.match(r"mov +%rsp,%r11$", before) else 0
    if re.match(r"sub +\$0x[0-9a-f]+,%r11$", before) and re.match(r"sub +\$0x[0-9a-f]+,%rsp$", words):
        return 0
    if words.startswith("push"):
        return 8
    if words.startswith("pop"):
        return -8
    if by := re.match(r"(sub|add)q? +\$(0x[0-9a-f]+),%rsp$", words):
        return int(by[2], 16) if by[1] == "sub" else -int(by[2], 16)
    if re.search(r",%rsp$", words) and not words.startswith(("cmp", "test")):
        raise SystemExit(f"stack.py cannot read: {words}")
    return 0


def walked(name, code):
    """What a function keeps at its deepest, and at each call: the callee and what is kept there."""
    place = {at: k for k, (at, _, _) in enumerate(code)}
    kept, calls, todo, jumped = {}, [], [(0, 0)], None
    while todo or (jumped is not None and len(kept) < len(code)):
        if not todo:  # a table of jumps leads to all that nothing else leads to
            todo.append((min(set(range(len(code))) - set(kept)), jumped))
        k, depth = todo.pop()
        while k < len(code) and k not in kept:
            kept[k] = depth
            _, words, into = code[k]
            verb = words.split()[0]
            target = re.search(r"\b([0-9a-f]+) <(.+?)(?:\+0x[0-9a-f]+)?>$", words)
            if verb.startswith("call"):
                callee = into or target[2]
                calls.append((callee, depth + 8))
            elif verb.startswith("j"):
                if verb == "jmp" and "*" in words:
                    jumped = depth
                elif into or target[2] != name:
                    calls.append((into or target[2], depth))  # a call in the last place
                else:
                    todo.append((place[int(target[1], 16)], depth))
                if verb == "jmp":
                    break
            elif verb == "ret":
                break
            depth += moved(words, code[k - 1][1])
            k += 1
    below = [int(by, 16) for _, words, _ in code for by in re.findall(r"-(0x[0-9a-f]+)\(%rsp", words)]
    return max(kept.values()) + max(below, default=0), calls


def need(name, walks, ports, above=()):
    """The most that a function and what it calls keep; a circle counts once for each port."""
    if name not in walks:
        return 0
    most, calls = walks[name]
    for callee, kept in calls:
        if callee == name:
            continue
        if callee in above:
            raise SystemExit(f"stack.py: {name} and {callee} call each other, and it knows circles of one function alone")
        most = max(most, kept + need(callee, walks, ports, (*above, name)))
    rounds = [kept for callee, kept in calls if callee == name]
    return most + (ports - 1) * max(rounds, default=0)


def main():
    archive, header = sys.argv[1:]
    walks = {name: walked(name, code) for name, code in functions(archive).items()}
    said = re.findall(r"(CV2?)_STACK_(\w+) (\d+)", pathlib.Path(header).read_text())
    figures = {f"{edition}_{call}".lower(): int(figure) for edition, call, figure in said}
    short = False
    calls = [name for name in walks if name.startswith(("cv_", "cv2_")) and not name.startswith("cv_interface_")]  # a name that nobody calls
    for name in sorted(calls):
        ports = ROUNDS[name[: name.index("_") + 1]]
        needed, figure = need(name, walks, ports) + 8, figures.get(name, 0)
        short |= figure < needed
        print(f"{name}: at most {needed:,} of {figure:,} bytes{'' if needed <= figure else ', TOO SMALL'}")
    sys.exit(short)


main()
