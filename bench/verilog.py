#!/usr/bin/env python3
"""Times `soc verilog` on chains of buffers, and counts what an edge, a buffer, a crossbar and an id shrinker cost.

    bench/verilog.py [RUNS]

One design has a source and a sink of 64 ports each, 63 bound directly and one through 250 buffers. The other has 4 ports,
all through 250 buffers, which is nearly the most edges that a design may have. Times are processor seconds of the
program, the least of some runs. Registers and cells of one edge more, and of one buffer more, are differences between
short chains. Those of a crossbar, of n inputs and n outputs, and of a shrinker of 64 ids are what their designs have more
than as many edges and ports.
"""

import os
import resource
import subprocess
import sys
import tempfile
from pathlib import Path

TOP = Path(__file__).resolve().parent.parent
BUFFERS = 250


def node(name, kind, *lines):
    return ["[[node]]", f'name = "{name}"', f'kind = "{kind}"', *lines]


def bind(to, source):
    return ["[[bind]]", f'to = "{to}"', f'from = "{source}"']


def chain(ports, through, buffers, beat=8):
    """A source and a sink with so many ports, of which `through` are bound through so many buffers."""
    lines = ["version = 1", 'name = "chain"']
    lines += node("core", "source", f"ports = {ports}", "ids = 4", "emits = { get = [1, 64], put_full = [1, 64] }")
    for n in range(buffers):
        lines += node(f"stage{n}", "buffer")
    sets = ", ".join(f"[[0x{n << 12:x}, 0xfff]]" for n in range(ports))
    lines += node("ram", "sink", f"beat = {beat}", f"addresses = [{sets}]", "supports = { get = [1, 64], put_full = [1, 64] }")
    names = ["core", *(f"stage{n}" for n in range(buffers)), "ram"]
    for _ in range(ports - through):
        lines += bind("ram", "core")
    for source, to in zip(names, names[1:]):
        for _ in range(through):
            lines += bind(to, source)
    return "\n".join(lines) + "\n"


EMITS = "{ get = [1, 64], put_full = [1, 64] }"


def sink(name, place):
    return node(name, "sink", "beat = 8", f"addresses = [[[0x{place << 16:x}, 0xffff]]]", f"supports = {EMITS}")


def crossbar(count, policy):
    """A crossbar between as many sources, of four ids each, and sinks."""
    lines = ["version = 1", 'name = "bar"', f'policy = "{policy}"']
    for n in range(count):
        lines += node(f"core{n}", "source", "ids = 4", f"emits = {EMITS}")
    lines += node("bus", "xbar")
    for n in range(count):
        lines += sink(f"ram{n}", n + 1)
    for n in range(count):
        lines += bind("bus", f"core{n}")
    for n in range(count):
        lines += bind(f"ram{n}", "bus")
    return "\n".join(lines) + "\n"


def shrinker(ids):
    """A shrinker from 64 ids to so many."""
    lines = ["version = 1", 'name = "few"', *node("core", "source", "ids = 64", f"emits = {EMITS}")]
    lines += [*node("few", "shrinker", f"args = [{ids}]"), *sink("ram", 1), *bind("few", "core"), *bind("ram", "few")]
    return "\n".join(lines) + "\n"


def run(folder, name, text, runs):
    """Processor seconds, the size of the saved text, and the line that was printed."""
    design, saved = Path(folder) / f"{name}.toml", Path(folder) / f"{name}.v"
    design.write_text(text)
    least, line = None, ""
    for _ in range(runs):
        before = resource.getrusage(resource.RUSAGE_CHILDREN)
        line = subprocess.run([TOP / "soc", "verilog", design, saved], stdout=subprocess.PIPE, check=True).stdout.decode().strip()
        after = resource.getrusage(resource.RUSAGE_CHILDREN)
        took = after.ru_utime + after.ru_stime - before.ru_utime - before.ru_stime
        least = took if least is None else min(least, took)
    return least, os.path.getsize(saved), line


def counted(line):
    words = line.split()
    return {word: int(words[at + 1]) for at, word in enumerate(words) if word in ("registers", "cells")}


def main():
    runs = int(sys.argv[1]) if len(sys.argv) > 1 else 5
    with tempfile.TemporaryDirectory() as folder:
        for name, ports, through in (("ports", 64, 1), ("edges", 4, 4)):
            took, size, line = run(folder, name, chain(ports, through, BUFFERS), runs)
            print(f"{ports:>3} ports, {through} through {BUFFERS} buffers: {took:6.2f} s, {size / 1e6:.1f} MB: {line}")
        example = TOP / "examples/pipeline"
        subprocess.run([TOP / "soc", "verilog", example.with_suffix(".toml"), Path(folder) / "pipeline.v"], stdout=subprocess.DEVNULL, check=True)
        same = (Path(folder) / "pipeline.v").read_bytes() == example.with_suffix(".v").read_bytes()
        print(f"examples/pipeline.v is what is saved: {same}")
        for beat in (4, 8):
            some = [counted(run(folder, "short", chain(1, 1, buffers, beat), 1)[2]) for buffers in (0, 1, 2)]
            for word in ("registers", "cells"):
                print(f"beat {beat}: {word} with 0, 1, 2 buffers: {', '.join(str(it[word]) for it in some)}")
        # two edges with a port at each end: two from the difference of chains, the ports from the chain of one edge
        one, two = (counted(run(folder, "plain", chain(1, 1, buffers), 1)[2]) for buffers in (0, 1))
        bare = {word: two[word] - (2 if word == "cells" else 0) for word in one}
        more = lambda text, pairs: {word: has - pairs * bare[word] for word, has in counted(run(folder, "part", text, 1)[2]).items()}
        for policy in ("lowest", "round"):
            for count in (1, 2, 4, 8, 16):
                print(f"crossbar {count} by {count}, {policy}: {more(crossbar(count, policy), count)}")
        for ids in (1, 4, 16, 64):
            print(f"shrinker of 64 ids to {ids}: {more(shrinker(ids), 1)}")


if __name__ == "__main__":
    main()
