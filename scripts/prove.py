#!/usr/bin/env python3
"""Proves the crates that the program stands on, as many side by side as there are processors, and builds it.

    scripts/prove.py

`./soc` calls it where the program is missing or older than its sources. Standard error tells what is being proved; on a
failure it has what the kit said. Exit status: 0 built, 1 not built, 130 interrupted.

The kit works on one crate of a checkout at a time. So each lane here has a copy of the sources of its own in the temporary
folder, and the kit hands what was proved in one copy on to the others, and at last to this checkout. What is proved is kept
as soon as a crate is done.
"""

import fcntl
import hashlib
import os
import shutil
import signal
import subprocess
import sys
import tempfile
import time
from pathlib import Path

TOP = Path(__file__).resolve().parent.parent
PROGRAM = "soc_program"
ROOM = Path(tempfile.gettempdir()) / f"soc-{os.getuid()}-{hashlib.sha256(str(TOP).encode()).hexdigest()[:12]}"
MEMORY_OF_A_PROOF = 4 << 30     # bytes: what the largest crates take


class Unbuilt(Exception):
    """A crate wasn't proved or built: its name, and the file of what the kit said."""


def stated_uses():
    """What each crate of the repository stands on, those of the kit among them."""
    uses = {}
    for line in (TOP / "crates.txt").read_text(encoding="utf-8").splitlines():
        head, found, names = line.split("#")[0].partition(":")
        if found:
            uses[head.split()[0]] = names.split()
    return uses


def crates_below(program, uses):
    """A program and the crates of the repository that it stands on, each with those that it stands on, lowest first."""
    order = {}

    def visit(crate):
        if crate in uses and crate not in order:
            for below in uses[crate]:
                visit(below)
            order[crate] = [below for below in uses[crate] if below in uses]

    visit(program)
    return order


def processors():
    return len(os.sched_getaffinity(0))


def lanes_for(crates):
    """How many crates are proved side by side: no more than processors, than memory allows, or than there are."""
    memory = os.sysconf("SC_PAGE_SIZE") * os.sysconf("SC_PHYS_PAGES")
    return max(1, min(processors(), memory // MEMORY_OF_A_PROOF, len(crates)))


def copied(lane, crates, uses):
    """The folder of a lane, with the sources of these crates alone, as they stand now."""
    folder = ROOM / f"lane{lane}"
    for crate in crates:
        for part in ("src", "specs", "proofs"):
            here, there = TOP / "crates" / crate / part, folder / "crates" / crate / part
            shutil.rmtree(there, ignore_errors=True)
            if here.is_dir():
                shutil.copytree(here, there)
    shutil.copyfile(TOP / "HANDLES", folder / "HANDLES")
    lines = [f"{crate}: {' '.join(uses[crate])}\n" for crate in crates]
    (folder / "crates.txt").write_text("".join(lines), encoding="utf-8")
    return folder


class Teller:
    """Tells on standard error where the build is: over the line before on a terminal, else a line at each change."""

    def __init__(self, count):
        self.count, self.begun, self.said, self.is_terminal = count, time.monotonic(), None, sys.stderr.isatty()

    def tell(self, names, done):
        minutes = int((time.monotonic() - self.begun) / 60)
        line = f"soc: proving {', '.join(names)}, {done} of {self.count} done, {minutes} min"
        if line != self.said:
            print(f"\r\033[K{line}" if self.is_terminal else line, end="" if self.is_terminal else "\n", file=sys.stderr, flush=True)
        self.said = line

    def end(self):
        if self.is_terminal and self.said:
            print(file=sys.stderr)


class Work:
    """A command of the kit on one crate, which writes to a log."""

    def __init__(self, crate, folder, *words):
        self.crate, self.log = crate, ROOM / f"{crate}.log"
        with open(self.log, "wb") as log:
            self.process = subprocess.Popen(["rt", *words], cwd=folder / "crates" / crate, stdin=subprocess.DEVNULL,
                stdout=log, stderr=subprocess.STDOUT, start_new_session=True)

    def is_done(self):
        status = self.process.poll()
        if status:
            raise Unbuilt(self.crate, self.log)
        return status == 0


def stop(running):
    """Ends what is under way, whatever signal comes meanwhile."""
    signal.signal(signal.SIGINT, signal.SIG_IGN)
    left = [work.process for work in running if work.process.poll() is None]
    for process in left:
        os.killpg(process.pid, signal.SIGTERM)
    for process in left:
        process.wait()


def prove(libraries, idle, teller, done):
    """Proves all libraries in the idle lanes, each when those below it are done. `done` fills with their names."""
    running, free = {}, processors()
    try:
        while len(done) < len(libraries):
            begun = {work.crate for work in running}
            ready = [it for it in libraries if it not in done and it not in begun and all(below in done for below in libraries[it])]
            for crate in ready:
                if not idle or free < 1:
                    break
                # a crate that nothing stands beside takes what would be idle
                jobs = free if len(ready) == 1 and not running else 1
                folder = idle.pop()
                running[Work(crate, folder, "lib", "--jobs", str(jobs))] = folder, jobs
                free -= jobs
            teller.tell([work.crate for work in running], len(done))
            time.sleep(0.5)
            for work in [it for it in running if it.is_done()]:
                folder, jobs = running.pop(work)
                done.append(work.crate)
                idle.append(folder)
                free += jobs
    except BaseException:
        stop(running)
        raise


def build(teller):
    """Proves and builds the program here, over the libraries that are proved, and runs it once on its stored words."""
    crate = TOP / "crates" / PROGRAM
    # (the kit runs it in the crate's folder here, and in data/ in the gate)
    words = [f"data/{it}" if (crate / "data" / it).is_file() else it for it in (crate / "args").read_text(encoding="utf-8").splitlines()]
    work = Work(PROGRAM, TOP, "run", "--", *words)
    try:
        while not work.is_done():
            teller.tell([PROGRAM], teller.count - 1)
            time.sleep(0.5)
    except BaseException:
        stop([work])
        raise
    if not (crate / "out" / PROGRAM).is_file():
        raise Unbuilt(PROGRAM, work.log)


def main():
    uses = stated_uses()
    libraries = crates_below(PROGRAM, uses)
    del libraries[PROGRAM]
    teller, done = Teller(len(libraries) + 1), []
    for number in (signal.SIGTERM, signal.SIGHUP):
        signal.signal(number, signal.default_int_handler)
    ROOM.mkdir(mode=0o700, parents=True, exist_ok=True)
    if ROOM.stat().st_uid != os.getuid():
        sys.exit(f"soc: {ROOM} is another user's")
    try:
        with open(ROOM.with_suffix(".lock"), "w", encoding="utf-8") as lock:
            fcntl.flock(lock, fcntl.LOCK_EX)
            lanes = [copied(lane, libraries, uses) for lane in range(lanes_for(libraries))]
            prove(libraries, lanes, teller, done)
            build(teller)
            teller.end()
            shutil.rmtree(ROOM, ignore_errors=True)
    except KeyboardInterrupt:
        teller.end()
        kept = f"proved and kept: {', '.join(done)}" if done else "no crate was done"
        print(f"soc: interrupted; {kept} ({len(done)} of {teller.count}); the next run goes on there", file=sys.stderr)
        return 130
    except Unbuilt as unbuilt:
        teller.end()
        crate, log = unbuilt.args
        sys.stderr.write(log.read_text(encoding="utf-8", errors="replace"))
        print(f"soc: {crate} wasn't built", file=sys.stderr)
        return 1
    return 0


if __name__ == "__main__":
    sys.exit(main())
