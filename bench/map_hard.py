#!/usr/bin/env python3
"""Times `map` on designs that are meant to be hard, and prints what it answers and takes.

    bench/map_hard.py

`wide` has many address sets on many edges, `growing` other sets on each edge, and `holes` the same with sets in two
pieces. `ladder` doubles its slaves beside many that don't, `joined` has many sources on many edges of two crossbars, and
`doubling` asks for more slaves than any machine holds.
"""

import resource
import subprocess
import sys
import tempfile
from pathlib import Path

TOP = Path(__file__).resolve().parent.parent
PROGRAM = TOP / "crates/soc_program/out/soc_program"
SOURCE = '{name = "s%d", kind = "source", ids = 1, emits = {get = [1, 8]}}'


def bind(to, source, kind=":="):
    return '{to = "%s", from = "%s", kind = "%s"}' % (to, source, kind)


def design(nodes, binds):
    return 'version = 1\nname = "hard"\nnode = [%s]\nbind = [%s]\n' % (",\n".join(nodes), ",\n".join(binds))


def sink(name, first, ports, mask=15):
    """A sink whose ports have 16 sets each; the first port is this one of all."""
    sets = []
    for port in range(first, first + ports):
        sets.append("[%s]" % ",".join("[%d, %d]" % ((port * 16 + n) * 16, mask) for n in range(16)))
    return '{name = "%s", kind = "sink", beat = 8, addresses = [%s], supports = {get = [1, 8]}}' % (name, ",".join(sets))


def wide(crossbars=117, sinks=8, own=0, mask=15):
    """Two sources, crossbars in a row, the first with sinks of their own, and sinks of 64 ports behind the last of them."""
    nodes = [SOURCE % 0, SOURCE % 1] + ['{name = "x%d", kind = "xbar"}' % k for k in range(crossbars)]
    binds = [bind("x0", "s0"), bind("x0", "s1")] + [bind("x%d" % (k + 1), "x%d" % k) for k in range(crossbars - 1)]
    for k in range(own):
        nodes.append(sink("q%d" % k, k, 1, mask))
        binds.append(bind("q%d" % k, "x%d" % k))
    for k in range(sinks):
        nodes.append(sink("r%d" % k, own + k * 64, 64, mask))
        binds.append(bind("r%d" % k, "x%d" % (crossbars - 1), ":*="))
    return design(nodes, binds)


def steps_between(steps):
    """Crossbars and shrinkers in turn, each step bound twice: each crossbar shows twice the slaves of the next."""
    nodes = [SOURCE % 0, '{name = "x0", kind = "xbar"}']
    binds = [bind("x0", "s0")]
    for k in range(1, steps + 1):
        nodes += ['{name = "h%d", kind = "shrinker", args = [1]}' % k, '{name = "x%d", kind = "xbar"}' % k]
        binds += [bind("h%d" % k, "x%d" % (k - 1))] * 2 + [bind("x%d" % k, "h%d" % k)] * 2
    return nodes, binds


def doubling(steps=126):
    """The steps in front of one sink."""
    nodes, binds = steps_between(steps)
    nodes.append('{name = "r", kind = "sink", beat = 8, addresses = [[[0x1000, 0xfff]]], supports = {get = [1, 8]}}')
    binds.append(bind("r", "x%d" % steps))
    return design(nodes, binds)


def ladder(steps, sinks):
    """The steps in front of a sink with 16 sets, and sinks of 64 ports with lower sets at the first crossbar."""
    nodes, binds = steps_between(steps)
    for k in range(sinks):
        nodes.append(sink("u%d" % k, k * 64, 64))
        binds.append(bind("u%d" % k, "x0", ":*="))
    nodes.append(sink("r", 1 << 39, 1))
    binds.append(bind("r", "x%d" % steps))
    return design(nodes, binds)


def joined(between, sources=8, ports=62, sinks=7, outs=57):
    """Sources of many ports at a crossbar, so many binds to a second one, and sinks of many ports behind that."""
    nodes = ['{name = "a", kind = "xbar"}', '{name = "b", kind = "xbar"}']
    binds = []
    for k in range(sources):
        nodes.append('{name = "s%d", kind = "source", ports = %d, ids = 1, emits = {get = [1, 8]}}' % (k, ports))
        binds.append(bind("a", "s%d" % k, ":=*"))
    binds += [bind("b", "a")] * between
    for k in range(sinks):
        nodes.append(sink("r%d" % k, k * outs, outs))
        binds.append(bind("r%d" % k, "b", ":*="))
    return design(nodes, binds)


def rows(buffers=239, ports=4, outs=64):
    """Rows of buffers in front of a crossbar and a sink: 1,024 edges, all but 64 of which show 64 slaves. It is accepted."""
    nodes = ['{name = "s", kind = "source", ports = %d, ids = 1, emits = {get = [1, 8]}}' % ports]
    nodes += ['{name = "b%d", kind = "buffer"}' % k for k in range(buffers)]
    nodes += ['{name = "x", kind = "xbar"}', sink("r", 0, outs)]
    row = ["s"] + ["b%d" % k for k in range(buffers)] + ["x"]
    binds = [bind(row[k + 1], row[k]) for k in range(len(row) - 1)] * ports
    return design(nodes, binds + [bind("r", "x", ":*=")])


def run(name, text):
    with tempfile.NamedTemporaryFile("w", suffix=".toml") as file:
        file.write(text)
        file.flush()
        before = resource.getrusage(resource.RUSAGE_CHILDREN)
        answer = subprocess.run([PROGRAM, "map", file.name], stdout=subprocess.PIPE)
        after = resource.getrusage(resource.RUSAGE_CHILDREN)
    line = answer.stdout.decode().split("\n")[0]
    seconds = after.ru_utime + after.ru_stime - before.ru_utime - before.ru_stime
    print("%9s  exit %d  %-24s %6.2f s  at most %5d MB" % (name, answer.returncode, line, seconds, after.ru_maxrss // 1024))


def main():
    if len(sys.argv) > 1:
        sys.exit("usage: bench/map_hard.py")
    if not PROGRAM.exists():
        subprocess.run([TOP / "soc", "map", TOP / "examples/one.toml"], stdout=subprocess.DEVNULL, check=True)
    run("wide", wide())
    run("growing", wide(crossbars=100, own=100))
    run("holes", wide(crossbars=60, sinks=13, own=60, mask=15 | 1 << 47))
    run("ladder", ladder(16, 8))
    run("joined", joined(20))
    run("doubling", doubling())
    run("rows", rows())


if __name__ == "__main__":
    main()
