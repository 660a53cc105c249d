#!/usr/bin/env python3
"""Holds the header against all that stands beside it: header.py ARCHIVE, or a shared library in its place.

The calls that it declares are the ones that the library has, which takes memcpy and memset alone from outside; a thrown away answer of
each draws a warning in C and in C++; the Rust crate declares each; the test of the stack runs each; and each, those of the Rust crate's
module `owned` too, is in an example of C and of Rust.
"""
import os
import pathlib
import re
import shutil
import subprocess
import sys

ROOT = pathlib.Path(__file__).resolve().parent.parent.parent
HEADER = (ROOT / "include/chordvenus.h").read_text()
COMPILERS = [(["CC", "cc"], "c", ("c99", "c11", "c2x")), (["CXX", "c++"], "c++", ("c++11", "c++17"))]


def text_of(pattern):
    return "\n".join(path.read_text() for path in sorted(ROOT.glob(pattern)))


def told(words, **more):
    return subprocess.run(words, capture_output=True, text=True, **more)


def names_in(library):
    """What a library defines for others, and what it wants of them."""
    nm = shutil.which("x86_64-linux-gnu-nm") or "nm"
    which = ["-D"] if ".so" in library else ["-g"]
    symbols = re.findall(r"^(?:[0-9a-f]+)? +(\w) (\w+)(?:@\S+)?$", told([nm, *which, library], check=True).stdout, re.M)
    return {name for kind, name in symbols if kind in "TDBR"}, {name for kind, name in symbols if kind == "U"}


def warned(calls):
    """The calls that some compiler lets anybody throw away."""
    source = "".join(f"void throw_{name}(void);\nvoid throw_{name}(void) {{ {name}({', '.join('0' * len(arguments))}); }}\n" for name, arguments in calls.items())
    silent = []
    for (variable, usual), language, standards in COMPILERS:
        for standard in standards:
            words = [os.environ.get(variable, usual), "-Wall", f"-std={standard}", f"-I{ROOT}/include", "-c", "-o", "/dev/null", "-x", language, "-"]
            said = told(words, input=f"#include <chordvenus.h>\n{source}")
            if said.returncode != 0:
                sys.exit(said.stderr)
            lines = re.findall(r"<stdin>:(\d+):\d+: warning: ignoring return value", said.stderr)
            thrown = {source.splitlines()[int(line) - 2] for line in lines}
            silent += [f"{name} in {standard}" for name in calls if not any(f" {name}(" in line for line in thrown)]
    return silent


def rust_name(call):
    edition, name = re.fullmatch(r"cv(2?)_(\w+)", call).groups()
    return f"{'second' if edition else 'chordvenus'}::{name}("


def main():
    library = sys.argv[1]
    declared = {name: arguments.split(", ") if arguments != "void" else [] for name, arguments in re.findall(r"^CV_NODISCARD \w+ (cv2?_\w+)\((.*)\);$", HEADER, re.M)}
    version = re.search(r"#define CV_VERSION (\d+)", HEADER)[1]
    defined, wanted = names_in(library)
    in_c, in_rust, stack = text_of("examples/**/*.c"), text_of("bindings/rust/examples/*.rs"), text_of("bindings/c/stack.c")
    in_sys = set(re.findall(r"pub fn (cv2?_\w+)\(", text_of("bindings/rust/src/sys.rs")))
    owned = [f"{module}::{name}" for module, path in (("owned", "owned.rs"), ("second::owned", "second/owned.rs"))
             for name in re.findall(r"^pub fn (\w+)", text_of(f"bindings/rust/src/{path}"), re.M)]
    faults = {
        "declared without CV_NODISCARD": re.findall(r"^(?:uint64_t|cv2?_\w+) (cv2?_\w+)\(", HEADER, re.M),
        "declared, and not in the library": set(declared) - defined,
        "in the library, and not declared": defined - set(declared) - {f"cv_interface_{version}", "_init", "_fini"},
        "wanted from outside": wanted - {"memcpy", "memset"},
        "not in the Rust crate, or only there": in_sys ^ set(declared),
        "thrown away without a warning": warned(declared),
        "without a run on its own stack": [name for name in declared if f'"{name}"' not in stack],
        "without an example in C": [name for name in declared if f"{name}(" not in in_c and not re.search(rf"\b{name}\b[,)]", in_c)],
        "without an example in Rust": [name for name in declared if rust_name(name) not in in_rust],
        "of owned without an example": [name for name in owned if f"{name}(" not in in_rust],
    }
    for what, names in faults.items():
        if names:
            print(f"{what}: {', '.join(sorted(names))}")
    print(f"{library}: {len(declared)} calls, {sum(map(len, faults.values()))} faults")
    sys.exit(any(faults.values()))


main()
