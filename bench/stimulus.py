#!/usr/bin/env python3
"""Times a memory under many requests, and the reading of a stimulus file that is as large as one may be.

    bench/stimulus.py [RUNS]

The memory has 2,560,000 addresses and is asked a million gets and puts of 64 bytes in turn. The file has 16,777,216 bytes
and 10,000 masked puts of 256 bytes. Times are processor seconds of the program, the least of some runs, less what the same
run takes without requests, or without reading; memory is the most that the program held.
"""

import resource
import subprocess
import sys
import tempfile
from pathlib import Path

TOP = Path(__file__).resolve().parent.parent
CRATE = TOP / "crates/bench_stimulus"
PROGRAM = CRATE / "out/bench_stimulus"
ADDRESSES, ASKED = 2_560_000, 1_000_000
BYTES, REQUESTS = 16_777_216, 10_000

DESIGN = """version = 1
name = "bench"
[[node]]
name = "core"
kind = "source"
ids = 64
emits = { put_partial = [1, 256] }
[[node]]
name = "ram"
kind = "sink"
beat = 8
addresses = [[[0x80000000, 0xfffffff]]]
supports = { put_partial = [1, 256] }
[[bind]]
to = "ram"
from = "core"
"""


def stimulus():
    """10,000 masked puts of 256 bytes, and comments up to the most bytes of a file."""
    parts = ["cycles = 100000\n"]
    for number in range(REQUESTS):
        data = "".join(f"{(number + place) % 256:02x}" for place in range(256))
        mask = "".join("10"[(number + place) % 2] for place in range(256))
        parts.append(
            f'[[request]]\nnode = "core"\nop = "put_partial"\naddress = 0x{0x80000000 + 256 * number:x}\nbytes = 256\n'
            f'source = {number % 64}\nat = {number}\nparam = 0\nport = 0\ndata = "{data}"\nmask = "{mask}"\n'
        )
    text = "".join(parts)
    line = "# " + "x" * 97 + "\n"
    text += line * ((BYTES - len(text)) // len(line))
    return text + "\n" * (BYTES - len(text))


def measured(words, runs):
    """Processor seconds, the least of some runs; the most memory in MB, over all children so far; what was printed."""
    least = None
    for _ in range(runs):
        before = resource.getrusage(resource.RUSAGE_CHILDREN)
        run = subprocess.run([PROGRAM, *words], stdout=subprocess.PIPE, check=True)
        after = resource.getrusage(resource.RUSAGE_CHILDREN)
        took = after.ru_utime + after.ru_stime - before.ru_utime - before.ru_stime
        least = took if least is None else min(least, took)
    return least, after.ru_maxrss / 1024, run.stdout.decode().strip()


def main():
    runs = int(sys.argv[1]) if len(sys.argv) > 1 else 5
    if "--built" not in sys.argv:
        subprocess.run(["rt", "run", "--", "memory", "6464", "202"], cwd=CRATE, stdout=subprocess.DEVNULL, stderr=subprocess.DEVNULL, check=True)
    opening, memory, _ = measured(["memory", str(ADDRESSES), "0"], runs)
    print(f"a memory of {ADDRESSES} addresses is prepared in {opening:.3f} s and {memory:.0f} MB, their list included")
    took, _, line = measured(["memory", str(ADDRESSES), str(ASKED)], runs)
    print(f"{line}: {took - opening:.3f} s")
    with tempfile.TemporaryDirectory() as folder:
        design, file = Path(folder) / "bench.toml", Path(folder) / "stimulus.toml"
        design.write_text(DESIGN)
        file.write_text(stimulus())
        assert file.stat().st_size == BYTES
        loading, _, _ = measured(["file", design, file, "0"], runs)
        took, memory, line = measured(["file", design, file, "1"], runs)
        print(f"{line}: {took - loading:.3f} s and {memory:.0f} MB, loaded in {loading:.3f} s")


if __name__ == "__main__":
    main()
