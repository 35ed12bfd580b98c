#!/usr/bin/env python3
"""Times the printing and the reading of netlists' texts on made netlists of all operators.

    bench/text.py [RUNS]

Times are processor seconds of the program for one text, the least of some runs, less what making the netlist, and
for reading also its text, takes: the same run with no times.
"""

import resource
import subprocess
import sys
from pathlib import Path

TOP = Path(__file__).resolve().parent.parent
PROGRAM = TOP / "crates/bench_netlists/out/bench_netlists"
TIMES = 20


def build():
    """Proves and builds the program; the toolchain does nothing where it is built already."""
    subprocess.run(["rt", "run", "--", "print", "100", "2"], cwd=TOP / "crates/bench_netlists", stdout=subprocess.DEVNULL, stderr=subprocess.DEVNULL, check=True)


def seconds(work, cells, times, runs):
    """Processor seconds, and the last number that the program prints."""
    least = None
    for _ in range(runs):
        before = resource.getrusage(resource.RUSAGE_CHILDREN)
        run = subprocess.run([PROGRAM, work, str(cells), str(times)], stdout=subprocess.PIPE, check=True)
        after = resource.getrusage(resource.RUSAGE_CHILDREN)
        took = after.ru_utime + after.ru_stime - before.ru_utime - before.ru_stime
        least = took if least is None else min(least, took)
    return least, int(run.stdout.split()[-2])


def main():
    runs = int(sys.argv[1]) if len(sys.argv) > 1 else 5
    build()
    for cells in (25_000, 50_000):
        for work in ("print", "read"):
            idle, _ = seconds(work, cells, 0, runs)
            took, count = seconds(work, cells, TIMES, runs)
            if work == "print":
                size = count / TIMES / 1e6
            else:
                assert count == cells * TIMES, count
            each = (took - idle) / TIMES
            print(f"{cells:>6} cells {size:.2f} MB {work:<5} {1000 * each:7.1f} ms {size / each:6.0f} MB/s")


if __name__ == "__main__":
    main()
