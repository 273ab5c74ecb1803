#!/usr/bin/env python3
"""Checks one crate over libraries that are proved already, and tells which functions took longest.

usage: tools/check_seconds.py CRATE GATE [--kept DIR] [--test] [--only FUNCTION].. [--most N]     at the top of the repository

GATE is a clone in which `rt ci` has run, or has got past the crates below CRATE: their libraries are taken from there, so none is proved again. --kept names a
folder in which the check keeps what it proved; the next one with the same folder proves only what changed. What is printed is no verdict.
"""
import argparse
import os
import subprocess
import sys
import time

KIT = "/opt/rattle"


def libraries(path):
    """The crates of a crates.txt, each with what it stands on."""
    with open(path, encoding="utf-8") as it:
        lines = [line.split("#")[0] for line in it]
    return {name.strip(): below.split() for name, _, below in (line.partition(":") for line in lines if ":" in line)}


def words(args):
    crates = libraries("crates.txt")
    rlib = lambda name: f"{args.gate}/crates/{name}/out/rlib/{name}.rlib" if name in crates else f"{KIT}/rlibs/{name}.rlib"
    root = "main" if os.path.isfile(f"crates/{args.crate}/src/main.rt") else "lib"
    found = [f"{KIT}/bin/rattle", "check", "--crate-name", args.crate, f"src/{root}.rt", "--jobs", "1", "--progress"]
    for name in ["std", *crates[args.crate]]:
        found += ["--extern", f"{name}={rlib(name)}"]
    for name in crates:
        found += ["-L", f"dependency={os.path.dirname(rlib(name))}"]
    found += ["-L", f"dependency={KIT}/rlibs", "--antt-project", f"{KIT}/rattle/logic/antt-project.json", "--logic-built", f"{KIT}/logic_built"]
    found += ["--incremental", os.path.abspath(args.kept)] if args.kept else []
    return found + ["--test"] * args.test + [f"--only={it}" for it in args.only]


def main():
    parser = argparse.ArgumentParser(description=__doc__, formatter_class=argparse.RawDescriptionHelpFormatter)
    parser.add_argument("crate")
    parser.add_argument("gate", type=os.path.abspath)
    parser.add_argument("--kept")
    parser.add_argument("--test", action="store_true")
    parser.add_argument("--only", action="append", default=[])
    parser.add_argument("--most", type=int, default=20)
    args = parser.parse_args()
    check = subprocess.Popen(words(args), cwd=f"crates/{args.crate}", stdout=subprocess.PIPE, stderr=subprocess.STDOUT, text=True, errors="replace")
    start = last = time.monotonic()
    spent = []
    for line in check.stdout:
        now = time.monotonic()
        if line.startswith("checked "):
            spent.append((now - last, line.split()[1].rstrip(",")))
        elif not line.startswith("statements ") and not line.rstrip().endswith(": proved"):
            print(line, end="")
        last = now
    for seconds, name in sorted(spent, reverse=True)[: args.most]:
        print(f"{seconds:7.1f}  {name}")
    print(f"{last - start:7.1f}  in all")
    return check.wait()


if __name__ == "__main__":
    sys.exit(main())
