#!/usr/bin/env python3
"""Times LAPJV, as scipy has it, on each sheet file of a folder, and prints a line for each. It needs Debian's python3-scipy.

Carriers may stay out, which neither function knows. For `linear_sum_assignment` the matrix of carriers x jobs gets a column
of worth 0 for each carrier, and a pair that the sheet does not list is worth 0 too: it counts as staying out. For
`min_weight_full_bipartite_matching`, which pairs every row over the listed pairs alone, each carrier gets a job of its own
of worth 1, and every listed worth is raised by 1, since a stored 0 is no pair there. Both must find the same worth, and
the worth that the listing tells, where it is given.

The matrices are made before the clock starts. Usage: bench/lapjv.py BENCH FOLDER.
"""
import pathlib
import subprocess
import sys
import time

import numpy
from scipy.optimize import linear_sum_assignment
from scipy.sparse import csr_matrix
from scipy.sparse.csgraph import min_weight_full_bipartite_matching


def numbers(data):
    """The numbers of a sheet file: groups of seven bits, lowest first."""
    value, scale = 0, 1
    for byte in data:
        value += (byte & 0x7F) * scale
        scale *= 128
        if byte < 0x80:
            yield value
            value, scale = 0, 1


def sheet(data):
    """The number of jobs, and the row of each carrier as pairs of job and worth."""
    read = numbers(data)
    carriers, jobs, _ceiling = next(read), next(read), next(read)
    rows = [[(next(read), next(read)) for _ in range(next(read))] for _ in range(carriers)]
    return jobs, rows


def least(call):
    """The least time of a call in microseconds, of five rounds, each of which takes at least 20 ms."""
    start = time.perf_counter()
    call()
    times = max(1, int(0.02 / max(time.perf_counter() - start, 1e-7)))
    best = float("inf")
    for _ in range(5):
        start = time.perf_counter()
        for _ in range(times):
            call()
        best = min(best, (time.perf_counter() - start) / times)
    return best * 1e6


def measured(path):
    """The times of both functions on a sheet file, and the worth of the pairing that both find."""
    jobs, rows = sheet(path.read_bytes())
    dense = numpy.zeros((len(rows), jobs + len(rows)))
    places, worths = [], []
    for carrier, row in enumerate(rows):
        for job, worth in row + [(jobs + carrier, 0)]:
            dense[carrier, job] = worth
            places.append((carrier, job))
            worths.append(worth + 1)
    lines, columns = zip(*places)
    sparse = csr_matrix((worths, (lines, columns)), shape=dense.shape)
    best = dense[linear_sum_assignment(dense, maximize=True)].sum()
    matched = min_weight_full_bipartite_matching(sparse, maximize=True)
    if sparse[matched].sum() - len(rows) != best:
        sys.exit(f"{path}: the two functions disagree")
    return (
        least(lambda: linear_sum_assignment(dense, maximize=True)),
        least(lambda: min_weight_full_bipartite_matching(sparse, maximize=True)),
        int(best),
    )


def main():
    _, bench, folder = sys.argv
    print(f"{'dense us':>9} {'sparse us':>9}")
    for path in sorted(pathlib.Path(folder).glob("*.sheet")):
        dense, sparse, worth = measured(path)
        listing = subprocess.run([bench, "list", path], check=True, capture_output=True, text=True).stdout
        if listing.splitlines()[-1].split()[1] != str(worth):
            sys.exit(f"{path}: the listing tells another worth than {worth}")
        print(f"{dense:9.1f} {sparse:9.1f}")


main()
