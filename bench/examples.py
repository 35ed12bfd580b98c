#!/usr/bin/env python3
"""Says where examples/ and the copies that are tried in the gate differ.

Run it at the top of the repository. The program crates/soc_tests runs on the designs and netlist texts in its data folder, and
its stdout holds the maps, lines and traces that it must print: the same files and answers as in examples/, and of those in
examples/refused/ the refusal that stands in their first line, by `map` or by `verilog` as it says. Each difference is a line, and the status is 1 where there is one.
"""

import re
import sys
from pathlib import Path

EXAMPLES = Path("examples")
CASES = Path("crates/soc_tests")


def examples():
    """Each example with its run and with what is printed, exit status and all."""
    stimuli = sorted(EXAMPLES.glob("*.stimulus.toml"))
    for design in sorted([*EXAMPLES.glob("*.toml"), *(EXAMPLES / "guide").glob("*.toml")]):
        if design in stimuli:
            continue
        yield design, f"map {design.name}", f"{design.with_suffix('.map').read_text()}status 0\n"
    for stimulus in stimuli:
        design, trace = stimulus.name.replace(".stimulus", ""), stimulus.with_suffix("").with_suffix(".trace")
        yield stimulus, f"sim {design} {stimulus.name} traced.v", f"{trace.read_text()}status 0\n"
    for text in sorted(EXAMPLES.glob("*.v")):
        yield text, f"read {text.name}", f"{text.with_suffix('.read').read_text()}status 0\n"
    for refused in sorted((EXAMPLES / "refused").glob("*.toml")):
        line, _, meaning = refused.read_text()[2:].partition("\n")[0].partition(":")
        run = f"verilog {refused.name} none.v" if "`verilog`" in meaning else f"map {refused.name}"
        yield refused, run, f"{line}\nstatus 1\n"


def differences():
    """What differs: a copied file, or the answer that stands at the place of its run."""
    runs = [line for line in (CASES / "stdin").read_text().splitlines() if line.startswith("run ")]
    answers = re.findall(r"(?ms)^.*?^status \d+\n", (CASES / "stdout").read_text().partition("\n")[2])
    for example, words, printed in examples():
        copy, run = CASES / "data" / example.name, f"run {words}"
        if not copy.is_file() or copy.read_bytes() != example.read_bytes():
            yield f"{copy} isn't {example}"
        if run not in runs:
            yield f"{CASES}/stdin doesn't {run}"
        elif answers[runs.index(run)] != printed:
            yield f"{CASES}/stdout hasn't the answer to {example} in its place"


found = list(differences())
for line in found:
    print(line)
sys.exit(1 if found else 0)
