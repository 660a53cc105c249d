#!/usr/bin/env python3
"""Counts how often the quick cover reads a cell, once scanning for the lowest free output with slots left and once by labels.

    python3 makers/quick_reads.py     prints a table

The scan reads the cells of an input's free outputs, from output 0 on, until one has slots left. With labels the caller's cells are read
once each, into the working copy, and once more where the records have to be counted before they are written. All other reads are of the
copy: for the sums of its rows and columns, for the labels and for the slots left in all, then one for each pair that is joined in a slot:
what is subtracted there tells whether the label's bit goes.
"""
import random

from reference import IDLE, longest_line, quick_list


def scanned(n, cells, plan):
    """Cell reads of the scan while it makes the plan."""
    left, reads = list(cells), 0
    for slot, (_, outputs) in enumerate(plan):
        taken = set()
        for i in [(slot + k) % n for k in range(n)]:
            last = outputs[i] if outputs[i] != IDLE else n - 1
            reads += sum(j not in taken for j in range(last + 1))
            if outputs[i] != IDLE:
                taken.add(last)
                left[i * n + last] -= 1
    assert not any(left)
    return reads


def labelled(n, plan):
    """Reads of the working copy: each cell four times before the first slot, then one for each pair joined."""
    return 4 * n * n + sum(output != IDLE for _, outputs in plan for output in outputs)


def main():
    rng = random.Random(64)
    n = 64
    demands = {
        "dense, cells 0 to 26": [rng.randint(0, 26) for _ in range(n * n)],
        "sparse, four outputs an input": [rng.randint(1, 140) if j in row else 0 for row in [set(rng.sample(range(n), 4)) for _ in range(n)] for j in range(n)],
        "small, cells 0 to 3": [rng.randint(0, 3) for _ in range(n * n)],
    }
    print("| demand, N = 64 | T | slots | reads a slot, scanning | reads a slot of the copy, labels | times fewer | reads of the caller's cells in all | where records are counted first |")
    print("|---|---|---|---|---|---|---|---|")
    for kind, cells in demands.items():
        plan = quick_list(n, cells)
        scan, label = scanned(n, cells, plan), labelled(n, plan)
        print(f"| {kind} | {longest_line(n, cells)} | {len(plan)} | {scan / len(plan):.0f} | {label / len(plan):.1f} | {scan / label:.1f} | {n * n:,} | {2 * n * n:,} |")


if __name__ == "__main__":
    main()
