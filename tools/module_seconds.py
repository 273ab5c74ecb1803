#!/usr/bin/env python3
"""Checks one crate over libraries that are proved already, and tells which modules of its proof took longest: of a function the check of its
compiled form (`Lts`), its goals (`Proof`), and so on. It wants strace. What is printed is no verdict.

usage: tools/module_seconds.py CRATE GATE [--test] [--only FUNCTION].. [--most N] [--functions]     at the top of the repository

GATE is as in check_seconds.py. --functions sums the modules of each function.
"""
import argparse
import collections
import os
import re
import subprocess
import tempfile

from check_seconds import words

# The prover writes each module that it has checked to a file of its own, so the time between two of these is what the second one took.
WRITTEN = re.compile(r"\d+ +(\d+\.\d+) openat\(AT_FDCWD, \"[^\"]*/Rattle-([^/\"]*)\.oantt\.tmp")
OPENED = re.compile(r"\d+ +(\d+\.\d+) openat\(")
OF_A_FUNCTION = re.compile(r"\.(Lts|Proof|Kinds|Mir|Code|Met|Reads|Goals|Layout|Answers|Tie|Statement|Key|TheLaws|Ranges|Given|View|Symbol|TheLink|Named)\b.*$")


def spent(trace, of_functions):
    found, last = collections.Counter(), None
    for line in trace:
        opened = OPENED.match(line)
        if opened and last is None:
            last = float(opened[1])
        written = WRITTEN.match(line)
        if written:
            found[OF_A_FUNCTION.sub("", written[2]) if of_functions else written[2]] += float(written[1]) - last
            last = float(written[1])
    return found


def main():
    parser = argparse.ArgumentParser(description=__doc__, formatter_class=argparse.RawDescriptionHelpFormatter)
    parser.add_argument("crate")
    parser.add_argument("gate", type=os.path.abspath)
    parser.add_argument("--test", action="store_true")
    parser.add_argument("--only", action="append", default=[])
    parser.add_argument("--most", type=int, default=20)
    parser.add_argument("--functions", action="store_true")
    args = parser.parse_args()
    args.kept = None
    with tempfile.NamedTemporaryFile("r", errors="replace") as trace:
        traced = ["strace", "-f", "-ttt", "-e", "trace=openat", "-o", trace.name, *words(args)]
        subprocess.run(traced, cwd=f"crates/{args.crate}", stdout=subprocess.DEVNULL, stderr=subprocess.STDOUT, check=False)
        found = spent(trace, args.functions)
    for name, seconds in found.most_common(args.most):
        print(f"{seconds:7.1f}  {name}")
    print(f"{sum(found.values()):7.1f}  in all")


if __name__ == "__main__":
    main()
