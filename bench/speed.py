#!/usr/bin/env python3
"""Measures vcm against a plain program of the same job, and writes docs/SPEED.md.

usage: bench/speed.py [--vcm PROGRAM] [--runs 9] [--cases A,B,..] [--no-instructions] [--print]     at the top of the repository

Wants the program built (crates/vcm/out/vcm), cargo for the plain one (`bench/peer`), valgrind for instructions and /usr/bin/time for memory. Both programs take each
job in turn, and must print the same and end with the same status. Seconds are processor seconds, the least of the runs: on a busy machine believe the instructions. With
--print the tables are printed and no file is written.
"""
import argparse
import math
import os
import re
import resource
import subprocess
import sys
import tempfile

HERE = os.path.dirname(os.path.abspath(__file__))
sys.path.insert(0, HERE)
sys.dont_write_bytecode = True
import jobs  # noqa: E402

PEER = f"{HERE}/peer/bin/plain"


def once(program, job):
    """One run: what it printed, its status and its processor seconds."""
    before = resource.getrusage(resource.RUSAGE_CHILDREN)
    with open(job, "rb") as it:
        ran = subprocess.run([program], stdin=it, capture_output=True)
    after = resource.getrusage(resource.RUSAGE_CHILDREN)
    return (ran.stdout, ran.returncode), after.ru_utime + after.ru_stime - before.ru_utime - before.ru_stime


def memory(program, job, room):
    """The peak memory in MB."""
    with open(job, "rb") as it:
        subprocess.run(["/usr/bin/time", "-f", "%M", "-o", f"{room}/peak", program], stdin=it, capture_output=True)
    with open(f"{room}/peak", encoding="ascii") as it:
        return int(it.read().split()[-1]) / 1024


def instructions(program, job, room):
    """Millions of instructions of its own code, the kernel's left out: the same on every run."""
    with open(job, "rb") as it:
        ran = subprocess.run(["valgrind", "--tool=callgrind", f"--callgrind-out-file={room}/calls", program], stdin=it, capture_output=True)
    found = re.search(rb"Collected : (\d+)", ran.stderr)
    return int(found[1]) / 1e6 if found else math.nan


def seconds(args, job):
    """The least processor seconds of both, run in turn."""
    least = {args.vcm: math.inf, PEER: math.inf}
    for number in range(args.runs + 1):
        told = {}
        for program in least:
            told[program], spent = once(program, job)
            if number:
                least[program] = min(least[program], spent)
        if told[args.vcm] != told[PEER]:
            sys.exit(f"{job}: the two programs differ")
    return least[args.vcm], least[PEER]


def table(head, rows):
    line = lambda cells: "| " + " | ".join(cells) + " |"
    return "\n".join([line(head), line(["---"] * len(head)), *[line(it) for it in rows]])


def case_rows(args, room):
    for name in args.cases:
        job = f"{room}/{name}.job"
        with open(job, "wb") as it:
            it.write(jobs.CASES[name]())
        vcm, peer = seconds(args, job)
        row = [f"`{name}`", f"{vcm:.3f}", f"{vcm / max(peer, 1e-4):.2f}"]
        if args.instructions:
            mine, other = instructions(args.vcm, job, room), instructions(PEER, job, room)
            row += [f"{mine:.1f}", f"{mine / other:.2f}"]
        mine, other = memory(args.vcm, job, room), memory(PEER, job, room)
        print(" ".join(row), flush=True)
        yield [*row, f"{mine:.1f}", f"{mine / other:.2f}"]


def growth_rows(args, room):
    """How the instructions (or seconds) grow with the size: the exponent between the last two sizes."""
    for name, (sizes, make) in jobs.GROWTH.items():
        spent = []
        for size in sizes[-2:]:
            job = f"{room}/growth.job"
            with open(job, "wb") as it:
                it.write(make(size))
            spent.append(instructions(args.vcm, job, room) if args.instructions else seconds(args, job)[0])
        print(name, *spent, flush=True)
        yield [name, f"{sizes[-2]:,} to {sizes[-1]:,}", f"{math.log(spent[1] / spent[0]) / math.log(sizes[-1] / sizes[-2]):.2f}"]


def page(args, room):
    counted = ["instructions, millions", "of the plain program's"] if args.instructions else []
    cases = table(["Case", "seconds", "of the plain program's", *counted, "memory, MB", "of the plain program's"], list(case_rows(args, room)))
    growth = table(["Of", "sizes", "exponent"], list(growth_rows(args, room)))
    what = table(["Case", "What it is"], [[f"`{it}`", jobs.CASES[it].__doc__] for it in args.cases])
    return f"""# How fast it is

`bench/speed.py` wrote this page: it measures vcm against a plain program of the same job (`bench/peer`, Rust without proofs, nothing of it in vcm), which prints the same for each job here.
Seconds are processor seconds, the least of {args.runs} runs; instructions are those of the programs' own code, as valgrind counts them, and so the same on every run. No contract says how long anything takes.

{cases}

How the cost grows with the size, as an exponent: 1 is in proportion, 2 with the square.

{growth}

{what}
"""


def main():
    parser = argparse.ArgumentParser(description=__doc__, formatter_class=argparse.RawDescriptionHelpFormatter)
    parser.add_argument("--vcm", default=f"{HERE}/../crates/vcm/out/vcm", type=os.path.abspath)
    parser.add_argument("--runs", type=int, default=9)
    parser.add_argument("--cases", default=list(jobs.CASES), type=lambda it: it.split(","))
    parser.add_argument("--no-instructions", dest="instructions", action="store_false")
    parser.add_argument("--print", action="store_true")
    args = parser.parse_args()
    if not os.path.exists(PEER):
        subprocess.run(["sh", f"{HERE}/peer/build.sh"], check=True)
    with tempfile.TemporaryDirectory(prefix="bench-") as room:
        text = page(args, room)
    if args.print:
        print(text)
        return
    with open(f"{HERE}/../docs/SPEED.md", "w", encoding="utf-8") as it:
        it.write(text)


if __name__ == "__main__":
    main()
