#!/usr/bin/env python3
"""Makes what the programs are run on and what they must print: stdin and stdout of crates/vectors, all stored cases on one tape, and
those of crates/lister, the example batch.

What must be printed comes from the reference alone: no program is run here. From the repository's root:
    python3 makers/vectors.py            writes the four files
    python3 makers/vectors.py --check    says whether they are as they would be written
"""
import pathlib
import sys

import check_vectors
import console_vectors
import edition_vectors
import grating_vectors
import join_vectors
import lister_vectors
import move_vectors
import plan_vectors
import quiet_vectors
import record_vectors
import reference as ref
import rescue_vectors
import room_vectors
import second_vectors
import shop_vectors
import wish_list
import wish_vectors

MAKERS = [record_vectors, check_vectors, join_vectors, plan_vectors, grating_vectors, quiet_vectors, wish_vectors, lister_vectors, room_vectors, console_vectors, second_vectors, edition_vectors, move_vectors, shop_vectors, rescue_vectors]


def files():
    made = [case for maker in MAKERS for case in maker.cases()]
    batch = wish_list.records(pathlib.Path("examples/batch.txt").read_text())
    return {
        "crates/vectors/stdin": b"".join(steps for steps, _ in made),
        "crates/vectors/stdout": "".join(text for _, text in made).encode(),
        "crates/lister/stdin": batch,
        "crates/lister/stdout": ref.lister(batch).encode(),
    }


def main():
    ref.examples()  # the documented plans and edges, before the reference is asked for others
    ref.edges()
    if sys.argv[1:] == ["--check"]:
        wrong = [name for name, data in files().items() if pathlib.Path(name).read_bytes() != data]
        print("differ: " + " ".join(wrong) if wrong else "as made")
        sys.exit(1 if wrong else 0)
    for name, data in files().items():
        pathlib.Path(name).write_bytes(data)
        print(name, len(data), "bytes")


if __name__ == "__main__":
    main()
