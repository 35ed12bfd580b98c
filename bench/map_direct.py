#!/usr/bin/env python3
"""Times `soc map` on the largest design of sources bound directly to sinks, and on a half and a quarter of it.

    bench/map_direct.py [RUNS]

The largest design has 256 nodes, 1,024 binds, sinks of 64 ports with 16 sets each, and a file of nearly 1,048,576
bytes. Times are processor seconds of the program, the least of some runs.
"""

import os
import resource
import subprocess
import sys
import tempfile
from pathlib import Path

TOP = Path(__file__).resolve().parent.parent
SINK_PORTS, SETS = 64, 16


def port_counts(sources, edges):
    counts = [edges // sources] * sources
    for i in range(edges - sum(counts)):
        counts[i] += 1
    return counts


def design(parts):
    """The design with one of `parts` parts of the sinks, sources and binds."""
    sinks, sources = 16 // parts, 240 // parts
    edges = sinks * SINK_PORTS
    lines = ["version = 1", 'name = "largest"']
    for n, ports in enumerate(port_counts(sources, edges)):
        lines += ["[[node]]", f'name = "s{n}"', 'kind = "source"', f"ports = {ports}", "ids = 64", "emits = { get = [1, 64] }"]
    for n in range(sinks):
        ports = []
        for p in range(SINK_PORTS):
            first = (n * SINK_PORTS + p) * SETS
            ports.append("[" + ", ".join(f"[0x{(first + k) << 12:012x}, 0x{0xfff:012x}]" for k in range(SETS)) + "]")
        lines += ["[[node]]", f'name = "r{n}"', 'kind = "sink"', "beat = 8", "addresses = [" + ",\n".join(ports) + "]", "supports = { get = [1, 64], put_full = [1, 64] }"]
    names = [f"s{n}" for n, ports in enumerate(port_counts(sources, edges)) for _ in range(ports)]
    for edge, name in enumerate(names):
        lines += ["[[bind]]", f'to = "r{edge // SINK_PORTS}"', f'from = "{name}"']
    text = "\n".join(lines) + "\n"
    room = 1_048_000 // parts - len(text)
    return text + ("# " + "x" * 70 + "\n") * max(0, room // 73), edges


def seconds(path, runs):
    least = None
    for _ in range(runs):
        before = resource.getrusage(resource.RUSAGE_CHILDREN)
        run = subprocess.run([TOP / "soc", "map", path], stdout=subprocess.PIPE, check=True)
        after = resource.getrusage(resource.RUSAGE_CHILDREN)
        took = after.ru_utime + after.ru_stime - before.ru_utime - before.ru_stime
        least = took if least is None else min(least, took)
    return least, run.stdout


def main():
    runs = int(sys.argv[1]) if len(sys.argv) > 1 else 5
    with tempfile.TemporaryDirectory() as folder:
        for parts in (4, 2, 1):
            text, edges = design(parts)
            path = os.path.join(folder, f"part{parts}.toml")
            Path(path).write_text(text)
            took, printed = seconds(path, runs)
            lines = printed.count(b"\n")
            assert lines == 1 + edges + edges * SETS, lines
            print(f"{len(text):>9} bytes {edges:>5} edges {lines:>6} lines {took:8.3f} s")


if __name__ == "__main__":
    main()
