#!/usr/bin/env python3
"""Times the cycle simulator's engine on made netlists of all operators.

    bench/engine.py [RUNS]

Times are processor seconds of the program, the least of some runs, less what
opening takes: the same run with no cycles.
"""

import resource
import subprocess
import sys
from pathlib import Path

TOP = Path(__file__).resolve().parent.parent
PROGRAM = TOP / "crates/bench_netlists/out/bench_netlists"
# cells, and cycles
NETLISTS = ((5_000, 10_000), (30_000, 2_000), (100_000, 500), (1_000_000, 30))


def build():
    """Proves and builds the program; the toolchain does nothing where it is built already."""
    subprocess.run(["rt", "run", "--", "engine", "100", "20"], cwd=TOP / "crates/bench_netlists", stdout=subprocess.DEVNULL, stderr=subprocess.DEVNULL, check=True)


def seconds(cells, cycles, runs):
    least = None
    for _ in range(runs):
        before = resource.getrusage(resource.RUSAGE_CHILDREN)
        run = subprocess.run([PROGRAM, "engine", str(cells), str(cycles)], stdout=subprocess.PIPE, check=True)
        after = resource.getrusage(resource.RUSAGE_CHILDREN)
        assert run.stdout.startswith(f"cells {cells} cycles {cycles} state ".encode()), run.stdout
        took = after.ru_utime + after.ru_stime - before.ru_utime - before.ru_stime
        least = took if least is None else min(least, took)
    return least


def main():
    runs = int(sys.argv[1]) if len(sys.argv) > 1 else 5
    build()
    for cells, cycles in NETLISTS:
        opening = seconds(cells, 0, runs)
        took = seconds(cells, cycles, runs) - opening
        rate = cells * cycles / took / 1e6
        print(f"{cells:>7} cells {cycles:>6} cycles {took:7.3f} s {rate:6.0f} million cells a second, opened in {opening:.3f} s")


if __name__ == "__main__":
    main()
