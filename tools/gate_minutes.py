#!/usr/bin/env python3
"""Runs `rt ci`, the greater part of the gate, and tells where its processor time goes.

usage: tools/gate_minutes.py [LOG]     at the top of the repository

It runs `rt ci`, passes on what that prints (into the file LOG too, if one is given), watches the processes of the prover meanwhile, and prints at
the end the processor seconds of each crate by task: its proof, its tests, its must-fail edits with their number and mean, and the compilation of
a program. Its exit status is that of `rt ci`. Linux only, since it reads /proc.
"""
import collections
import os
import re
import subprocess
import sys
import threading
import time

TICKS = os.sysconf("SC_CLK_TCK")
PERIOD = 0.25
TASKS = ("proof", "tests", "edits", "compile")


def words_of(pid):
    with open(f"/proc/{pid}/cmdline", "rb") as it:
        return it.read().decode(errors="replace").split("\0")


def seconds_of(pid):
    with open(f"/proc/{pid}/stat", encoding="ascii", errors="replace") as it:
        fields = it.read().rpartition(")")[2].split()
    return (int(fields[11]) + int(fields[12])) / TICKS


def task_of(pid, words):
    """The crate and the task that a process of the prover works on, or None."""
    if not words[0].endswith("/rattle") or "--crate-name" not in words:
        return None
    crate = words[words.index("--crate-name") + 1]
    if "rt-edit" in os.readlink(f"/proc/{pid}/cwd"):
        return crate, "edits"
    if "--crate-checked" in words:
        return crate, "compile"
    return crate, "tests" if "--test" in words else "proof"


def watch(seen, done):
    """Keeps the last processor time that each process of the prover was seen with."""
    while not done.wait(PERIOD):
        for pid in filter(str.isdigit, os.listdir("/proc")):
            try:
                task = task_of(pid, words_of(pid))
                if task:
                    seen[(pid, *task)] = seconds_of(pid)
            except (OSError, ValueError, IndexError):
                continue


def table(seen, edits, elapsed):
    spent = collections.defaultdict(float)
    for (_, crate, task), seconds in seen.items():
        spent[crate, task] += seconds
    crates = sorted({crate for crate, _ in spent}, key=lambda crate: -sum(spent[crate, it] for it in TASKS))
    lines = [f"{'crate':14}" + "".join(f"{it:>9}" for it in TASKS) + f"{'number':>9}{'an edit':>9}"]
    for crate in crates:
        number = edits[crate]
        mean = f"{spent[crate, 'edits'] / number:9.1f}" if number else f"{'':9}"
        lines.append(f"{crate:14}" + "".join(f"{spent[crate, it]:9.0f}" for it in TASKS) + f"{number:9}{mean}")
    sums = [sum(spent[crate, it] for crate in crates) / 60 for it in TASKS]
    lines.append(f"{'minutes':14}" + "".join(f"{it:9.1f}" for it in sums) + f"{sum(edits.values()):9}")
    lines.append(f"processor minutes of the prover {sum(sums):.1f}, minutes on the clock {elapsed / 60:.1f}")
    return "\n".join(lines)


def main():
    if sys.argv[1:] and sys.argv[1].startswith("-"):
        sys.exit(__doc__)
    log = open(sys.argv[1], "w", encoding="utf-8") if len(sys.argv) > 1 else None
    seen, edits, done, start = {}, collections.Counter(), threading.Event(), time.monotonic()
    watcher = threading.Thread(target=watch, args=(seen, done), daemon=True)
    watcher.start()
    gate = subprocess.Popen(["rt", "ci"], stdout=subprocess.PIPE, stderr=subprocess.STDOUT, text=True, errors="replace")
    for line in gate.stdout:
        print(line, end="", flush=True)
        if log:
            log.write(line)
            log.flush()
        if found := re.match(r"rt: must-fail (\w+)/", line):
            edits[found[1]] += 1
    status = gate.wait()
    done.set()
    watcher.join()
    text = table(seen, edits, time.monotonic() - start)
    print(text)
    if log:
        log.write(text + "\n")
        log.close()
    return status


if __name__ == "__main__":
    sys.exit(main())
