#!/usr/bin/env python3
"""Times `soc sim` beside Icarus Verilog and Verilator on the text that it saves, with the same stimulus.

    bench/sim.py [CYCLES]

The designs are a source and a sink through 64 buffers, and four sources before a crossbar of four sinks. Gets and puts of 1 to 64
bytes enter as fast as they are taken. The others run a test bench that plays the trace of `sim` on the text: it offers in each cycle what
was offered, and compares what the outputs show (`tools/replay`), so they do no more than `sim`, which also finds the events and prints
them. Times are wall clock seconds, and of Verilator those of its build too; ratios are of times of the same run. A tool that isn't
installed is passed over, with a line that says so.
"""

import shutil
import subprocess
import sys
import tempfile
import time
from importlib.machinery import SourceFileLoader
from pathlib import Path

sys.dont_write_bytecode = True
TOP = Path(__file__).resolve().parent.parent
sys.path.insert(0, str(TOP / "bench"))
import verilog  # noqa: E402

replay = SourceFileLoader("replay", str(TOP / "tools" / "replay")).load_module()
# The most requests that a stimulus may have.
MOST_REQUESTS = 10_000


def request(node, number, address):
    """A put or a get of 1 to 64 bytes, by its number."""
    size = 1 << number % 7
    lines = ["[[request]]", f'node = "{node}"', f"address = {address}", f"bytes = {size}", f"source = {number % 4}"]
    if number % 2:
        return [*lines, 'op = "get"']
    data = "".join(f"{(number + place) % 256:02x}" for place in range(size))
    return [*lines, 'op = "put_full"', f'data = "{data}"']


def stimulus(cycles, sources, addresses):
    lines = [f"cycles = {cycles}"]
    for number in range(MOST_REQUESTS):
        lines += request(sources[number % len(sources)], number // len(sources), addresses[number * 7 % len(addresses)] + number % 16 * 64)
    return "\n".join(lines) + "\n"


def seconds(words, folder):
    begun = time.monotonic()
    said = subprocess.run(words, cwd=folder, stdout=subprocess.PIPE, check=True).stdout
    return time.monotonic() - begun, said.decode()


def beside(folder, cycles, mine):
    """Times the other simulators on the text and the trace of a folder."""
    saved = folder / "t.v"
    text = replay.Text(saved.read_text())
    replay.write_bench(folder, text, replay.cycles_of(text, (folder / "trace").read_text()))
    for name, tool in (("icarus", "iverilog"), ("verilator", "verilator")):
        if not shutil.which(tool):
            print(f"  {name}: not installed")
            continue
        begun = time.monotonic()
        words = replay.built(folder, saved, name)
        built = time.monotonic() - begun
        took, said = seconds(words, folder)
        told = next(line for line in said.splitlines() if line.endswith("differ"))
        print(f"  {name}: built in {built:.1f} s, {cycles / took:,.0f} cycles a second: sim is {took / mine:.1f} times as fast, {(took + built) / mine:.1f} times with the build ({told})")


def timed(name, design, cycles, sources, addresses):
    with tempfile.TemporaryDirectory() as scratch:
        folder = Path(scratch)
        (folder / "d.toml").write_text(design)
        (folder / "s.toml").write_text(stimulus(cycles, sources, addresses))
        mine, trace = seconds([TOP / "soc", "sim", "d.toml", "s.toml", "t.v"], folder)
        (folder / "trace").write_text(trace)
        _, line = seconds([TOP / "soc", "read", "t.v"], folder)
        print(f"{name}: {line.strip()}")
        print(f"  soc sim: {cycles / mine:,.0f} cycles a second, {len(trace.splitlines()) - 1:,} events, from design to trace in {mine:.2f} s")
        beside(folder, cycles, mine)


def main():
    cycles = int(sys.argv[1]) if len(sys.argv) > 1 else 50_000
    timed("64 buffers", verilog.chain(1, 1, 64), cycles, ["core"], [0])
    bar = verilog.crossbar(4, "round")
    timed("a crossbar of 4 and 4", bar, cycles, [f"core{n}" for n in range(4)], [(n + 1) << 16 for n in range(4)])


if __name__ == "__main__":
    main()
