"""What bindings/archive and bindings/lister share: each makes a file of a crate, unless it is there already of the crates as they are."""
import hashlib
import os
import pathlib
import re
import shutil
import subprocess
import sys

ROOT = pathlib.Path(__file__).resolve().parent.parent

# Code for any x86-64 processor. Without these words rt compiles for x86-64-v2, whose instructions older ones lack; a program looks as it
# starts whether they are there, and a library does not.
PROCESSOR = ["--cpu", "x86-64"]


def kit():
    """The folder of the toolchain at hand."""
    page = subprocess.run(["rt", "doc"], capture_output=True, text=True, check=True).stdout.strip()
    return pathlib.Path(page).resolve().parent


def sum_of(path):
    return hashlib.sha256(path.read_bytes()).hexdigest()


def sum_of_sources(crate, script):
    """One number for all that a file is made of: the kit, these scripts, and the crates that its own reaches."""
    below = dict(re.findall(r"^(\w+)[^:\n]*:(.*)$", (ROOT / "crates.txt").read_text(), re.M))
    reached, todo = set(), [crate]
    while todo:
        name = todo.pop()
        if name in below and name not in reached:
            reached.add(name)
            todo += below[name].split()
    files = [path for name in reached for part in ("src", "specs", "proofs") for path in (ROOT / "crates" / name / part).rglob("*") if path.is_file()]
    told = hashlib.sha256((kit() / "KIT-ID").read_bytes())
    for path in sorted([*files, pathlib.Path(__file__).resolve(), script]):
        told.update(f"{path.relative_to(ROOT)}\n".encode() + path.read_bytes())
    return told.hexdigest()


def by_rt(crate, words, **streams):
    """Runs rt in a crate's folder and has examples/progress show what it says, a line for each crate that is proved; ends where rt does not succeed."""
    shown = subprocess.Popen([ROOT / "examples/progress", crate], stdin=subprocess.PIPE)
    ended = subprocess.run(words, cwd=ROOT / "crates" / crate, stderr=shown.stdin, **{"stdout": shown.stdin, **streams})
    shown.stdin.close()
    shown.wait()
    if ended.returncode != 0:
        sys.exit(ended.returncode)
    return ended


def make(made, crate, script, build):
    """Has `build`, which answers where rt left it, make a file of a crate, unless it is there of the crates as they are."""
    if shutil.which("rt") is None:
        sys.exit(f"{made.name}: to make it takes the Rattle toolchain, whose command rt is not on the path")
    stamp, now = made.with_name("made-of"), sum_of_sources(crate, script)
    if made.is_file() and stamp.is_file() and stamp.read_text() == now + sum_of(made):
        return
    print(f"{made.name}: proving what is not proved yet, then compiling", flush=True)
    made.parent.mkdir(parents=True, exist_ok=True)
    stamp.unlink(missing_ok=True)
    new = made.with_name(f"{made.name}.new")
    shutil.copy(build(), new)
    os.replace(new, made)
    stamp.write_text(now + sum_of(made))
