#!/usr/bin/env python3
"""Runs the gate from nothing and prints what it costs, crate by crate, as a table for docs/GATE.md.

    bench/gate.py [LOG]                 LOG takes what `rt ci --anew` says; default: gate.log in the temporary folder

Processor seconds are those of the prover's processes, read twice a second, so a process that lives less than that may be
missed. Run it on an otherwise idle machine, in a clean checkout. Linux alone.
"""

import collections
import os
import re
import subprocess
import sys
import tempfile
import time
from pathlib import Path

TOP = Path(__file__).resolve().parent.parent
TICKS = os.sysconf("SC_CLK_TCK")
KINDS = ("proof", "tests", "edits")


def read(path):
    try:
        return Path(path).read_text(errors="replace")
    except OSError:
        return ""


def processes():
    """Each process with its parent, its processor seconds and when it started."""
    found = {}
    for name in filter(str.isdigit, os.listdir("/proc")):
        text = read(f"/proc/{name}/stat")
        if text:
            fields = text[text.rindex(")") + 2 :].split()
            found[int(name)] = int(fields[1]), (int(fields[11]) + int(fields[12])) / TICKS, int(fields[19])
    return found


def below(root, found):
    children = collections.defaultdict(list)
    for process, (parent, _, _) in found.items():
        children[parent].append(process)
    todo = [root]
    while todo:
        process = todo.pop()
        todo += children[process]
        yield process


def work_of(process):
    """The crate and the kind of work of a process of the prover, or None for another process."""
    words = read(f"/proc/{process}/cmdline").split("\0")
    if "--crate-name" not in words:
        return None
    try:
        folder = os.readlink(f"/proc/{process}/cwd")
    except OSError:
        folder = ""
    kind = "edits" if "/rt-edit-" in folder else "tests" if "--test" in words else "proof"
    return words[words.index("--crate-name") + 1], kind


def measured(run):
    """The processor seconds of each crate and kind of work, and when the first of it began and the last ended."""
    seen, began = {}, time.monotonic()
    while run.poll() is None:
        found, now = processes(), time.monotonic() - began
        for process in below(run.pid, found):
            if process not in found:
                continue
            _, seconds, start = found[process]
            work, _, first, _ = seen.get((process, start)) or (work_of(process), 0, now, now)
            seen[process, start] = work or work_of(process), seconds, first, now
        time.sleep(0.5)
    costs, spans = collections.Counter(), {}
    for work, seconds, first, last in seen.values():
        if work:
            costs[work] += seconds
            begin, end = spans.get(work, (first, last))
            spans[work] = min(begin, first), max(end, last)
    return costs, spans, time.monotonic() - began


def table(costs, spans, whole):
    """Minutes from the first process to the last, and processor minutes, of each kind of work that there is."""
    kinds = [kind for kind in KINDS if any(kind == other for _, other in costs)]
    minutes = lambda seconds: f"{seconds / 60:.1f}" if seconds else ""
    took = lambda work: minutes(spans[work][1] - spans[work][0]) if work in spans else ""
    heads = ["Crate", *[head for kind in kinds for head in (kind.capitalize(), "processor")], "Processor in all"]
    lines = [f"| {' | '.join(heads)} |", "|---" * len(heads) + "|"]
    for crate in sorted({name for name, _ in costs}):
        cells = [cell for kind in kinds for cell in (took((crate, kind)), minutes(costs[crate, kind]))]
        lines.append(f"| `{crate}` | {' | '.join([*cells, minutes(sum(costs[crate, kind] for kind in kinds))])} |")
    sums = [sum(seconds for (_, kind), seconds in costs.items() if kind == wanted) for wanted in kinds]
    lines.append(f"| all | {' | '.join([cell for seconds in sums for cell in ('', minutes(seconds))] + [minutes(sum(sums))])} |")
    return "\n".join([*lines, "", f"The whole: {whole / 60:.1f} minutes on {len(os.sched_getaffinity(0))} processors."])


def main():
    log = Path(sys.argv[1]) if len(sys.argv) > 1 else Path(tempfile.gettempdir()) / "gate.log"
    with open(log, "wb") as out:
        run = subprocess.Popen(["rt", "ci", "--anew"], cwd=TOP, stdin=subprocess.DEVNULL, stdout=out, stderr=subprocess.STDOUT)
        print(table(*measured(run)))
    print(read(log).rstrip().rpartition("\n")[2])
    return run.returncode


if __name__ == "__main__":
    sys.exit(main())
