"""The peel loop of the exact plan over scipy's matching and numpy: fill, then take any full setting
of the non-zero cells off for its smallest cell until all is zero.

    scipy_peel.py REPEATS FILE..

A file has N and then the N * N cells, 32 bits each, low byte first. For each file a line: records,
total hold, and the least nanoseconds of the repeats.
"""

import sys
import time

import numpy
from scipy.sparse import csr_matrix
from scipy.sparse.csgraph import maximum_bipartite_matching


def filled(cells):
    """Tops up each cell, in order, by as much as its row and its column both allow (§6.2)."""
    cells = cells.copy()
    rows, columns = cells.sum(axis=1), cells.sum(axis=0)
    longest = max(rows.max(), columns.max())
    for i in range(len(cells)):
        for j in range(len(cells)):
            added = min(longest - rows[i], longest - columns[j])
            cells[i, j] += added
            rows[i] += added
            columns[j] += added
    return cells, int(longest)


def peel(cells):
    """The number of records and the total hold of a plan of full settings."""
    rest, line = filled(cells)
    inputs = numpy.arange(len(rest))
    graph = csr_matrix(rest)
    records = total = 0
    while total < line:
        outputs = maximum_bipartite_matching(graph, perm_type="column")
        pairs = rest[inputs, outputs]
        hold = int(pairs.min())
        rest[inputs, outputs] = pairs - hold
        # The graph is kept, and an edge goes when its cell is empty.
        graph.data = rest[numpy.repeat(inputs, numpy.diff(graph.indptr)), graph.indices]
        graph.eliminate_zeros()
        records += 1
        total += hold
    return records, total


def main():
    for name in sys.argv[2:]:
        numbers = numpy.fromfile(name, dtype="<u4")
        cells = numbers[1:].astype(numpy.int64).reshape(numbers[0], numbers[0])
        least = None
        for _ in range(int(sys.argv[1])):
            began = time.perf_counter_ns()
            records, total = peel(cells)
            took = time.perf_counter_ns() - began
            least = took if least is None else min(least, took)
        print(records, total, least)


main()
