#!/usr/bin/env python3
"""Runs a command, `rt ci` where none is given, and measures where its processor time goes: the proof, the tests and the
must-fail edits of each crate. Writes the table of docs/GATE.md to standard output, and the command's output to gate.log.

usage: bench/gate.py [COMMAND ..] > table

The time of a process is read each half second, so what it takes in its last half second is lost; a check takes many.
"""
import os
import subprocess
import sys
import time

TICKS = os.sysconf("SC_CLK_TCK")


def what_of(pid):
    """The crate that a process of the prover works on, and for what; none for other processes."""
    try:
        with open(f"/proc/{pid}/cmdline", "rb") as it:
            words = it.read().decode(errors="replace").split("\0")
        folder = os.readlink(f"/proc/{pid}/cwd")
    except OSError:
        return None
    if "--crate-name" not in words or not words[0].endswith("rattle"):
        return None
    crate = words[words.index("--crate-name") + 1]
    if "/rt-edit" in folder:
        return crate, "edits"
    return crate, "tests" if "--test" in words else "proof"


def seconds_of(pid):
    """The processor time of a process so far."""
    with open(f"/proc/{pid}/stat", encoding="utf-8", errors="replace") as it:
        fields = it.read().rsplit(")", 1)[1].split()
    return (int(fields[11]) + int(fields[12])) / TICKS


def below(root):
    """The processes below a process."""
    parents = {}
    for name in os.listdir("/proc"):
        if name.isdigit():
            try:
                with open(f"/proc/{name}/stat", encoding="utf-8", errors="replace") as it:
                    parents[int(name)] = int(it.read().rsplit(")", 1)[1].split()[1])
            except OSError:
                pass
    found, new = set(), {root}
    while new:
        found |= new
        new = {pid for pid, parent in parents.items() if parent in new} - found
    return found


def measure(command):
    """The command's status, its time by the clock, and the processor time of each crate and work."""
    seen, work, begun = {}, {}, time.time()
    with open("gate.log", "w", encoding="utf-8") as log:
        run = subprocess.Popen(command, stdout=log, stderr=subprocess.STDOUT)
        while run.poll() is None:
            for pid in below(run.pid):
                what = work.get(pid) or what_of(pid)
                if what:
                    work[pid] = what
                    try:
                        seen[pid, what] = seconds_of(pid)
                    except OSError:
                        pass
                else:
                    work.pop(pid, None)
            time.sleep(0.5)
    totals = {}
    for (_, what), seconds in seen.items():
        totals[what] = totals.get(what, 0) + seconds
    return run.returncode, time.time() - begun, totals


def main():
    status, clock, totals = measure(sys.argv[1:] or ["rt", "ci"])
    kinds = ["proof", "tests", "edits"]
    crates = sorted({crate for crate, _ in totals}, key=lambda it: -sum(totals.get((it, kind), 0) for kind in kinds))
    minutes = lambda seconds: f"{seconds / 60:.1f}"
    print("| crate | proof | tests | edits | all |\n| --- | --- | --- | --- | --- |")
    for crate in crates:
        each = [totals.get((crate, kind), 0) for kind in kinds]
        print(f"| `{crate}` | {' | '.join(map(minutes, each))} | {minutes(sum(each))} |")
    each = [sum(totals.get((crate, kind), 0) for crate in crates) for kind in kinds]
    print(f"| all | {' | '.join(map(minutes, each))} | {minutes(sum(each))} |")
    print(f"\nBy the clock {minutes(clock)} minutes on {os.cpu_count()} processors; status {status}.")
    sys.exit(status)


main()
