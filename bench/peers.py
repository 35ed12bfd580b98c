#!/usr/bin/env python3
"""Times `soc read` beside other tools on the same text.

    bench/peers.py [RUNS]

`read` goes beside `iverilog -t null` and `yosys read_verilog`, which take the text in by their own rules and do other work besides
(Icarus elaborates it, Yosys makes its own netlist), on the text of 64 ports and 250 buffers. Times are processor seconds, the least of some
runs; ratios are of times of the same run. A tool that isn't installed is passed over, with a line that says so.
"""

import resource
import shutil
import subprocess
import sys
import tempfile
from pathlib import Path

sys.path.insert(0, str(Path(__file__).resolve().parent))
sys.dont_write_bytecode = True
import verilog  # noqa: E402

TOP = Path(__file__).resolve().parent.parent


def seconds(words, runs, folder):
    least, said = None, b""
    for _ in range(runs):
        before = resource.getrusage(resource.RUSAGE_CHILDREN)
        said = subprocess.run(words, cwd=folder, stdout=subprocess.PIPE, check=True).stdout
        after = resource.getrusage(resource.RUSAGE_CHILDREN)
        took = after.ru_utime + after.ru_stime - before.ru_utime - before.ru_stime
        least = took if least is None else min(least, took)
    return least, said.decode()


def main():
    runs = int(sys.argv[1]) if len(sys.argv) > 1 else 3
    with tempfile.TemporaryDirectory() as scratch:
        folder = Path(scratch)
        (folder / "ports.toml").write_text(verilog.chain(64, 1, verilog.BUFFERS))
        subprocess.run([TOP / "soc", "verilog", "ports.toml", "ports.v"], cwd=folder, stdout=subprocess.DEVNULL, check=True)
        size = (folder / "ports.v").stat().st_size / 1e6
        mine, _ = seconds([TOP / "soc", "read", "ports.v"], runs, folder)
        print(f"soc read: {size:.1f} MB in {mine:.2f} s")
        for name, words in (("iverilog", ["iverilog", "-g2005", "-t", "null", "ports.v"]), ("yosys", ["yosys", "-q", "-p", "read_verilog ports.v"])):
            if not shutil.which(name):
                print(f"{name}: not installed")
                continue
            took, _ = seconds(words, runs, folder)
            print(f"{name}: {took:.2f} s, {took / mine:.1f} times soc")


if __name__ == "__main__":
    main()
