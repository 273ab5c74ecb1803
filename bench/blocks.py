#!/usr/bin/env python3
"""Measures `vcm blocks` beside a plain program of the same job, in one run.

usage: bench/blocks.py [--vcm PROGRAM] [--model FILE WITHIN].. [--runs 3]     at the top of the repository

Wants the program built (crates/vcm/out/vcm), rustc for the plain one (`bench/blocks/plain.rs`) and /usr/bin/time for memory. The models are made here: a sphere and a wavy sheet of a million
triangles each, and a small tube; others may be named, each with its length in millimetres. Both programs must write the same part file. Seconds are processor seconds, the least of the runs.
"""
import argparse
import math
import os
import struct
import subprocess
import sys
import tempfile

HERE = os.path.dirname(os.path.abspath(__file__))
PLAIN = f"{HERE}/peer/bin/plain-blocks"


def grid(place, across, along):
    """Triangles over a grid of places; those without area at a pole are left out."""
    rows = [[place(i / across, j / along) for j in range(along + 1)] for i in range(across + 1)]
    for i in range(across):
        for j in range(along):
            a, b, c, d = rows[i][j], rows[i + 1][j], rows[i + 1][j + 1], rows[i][j + 1]
            yield from (t for t in ((a, b, c), (a, c, d)) if len(set(t)) == 3)


def sphere(across, along, radius=50.0):
    def place(u, v):
        if v in (0.0, 1.0):
            return (0.0, 0.0, -radius if v == 0 else radius)
        t, s = 2 * math.pi * (u % 1.0), math.pi * (v - 0.5)
        return (radius * math.cos(s) * math.cos(t), radius * math.cos(s) * math.sin(t), radius * math.sin(s))
    return grid(place, across, along)


def wavy(across, along):
    return grid(lambda u, v: (100 * u, 100 * v, 10 + 6 * math.sin(5 * u) * math.cos(4 * v) + 2 * math.sin(17 * u + 9 * v)), across, along)


def save(path, triangles):
    rows = [struct.pack("<12fH", 0, 0, 0, *a, *b, *c, 0) for a, b, c in triangles]
    with open(path, "wb") as file:
        file.write(b"bench".ljust(80) + struct.pack("<I", len(rows)) + b"".join(rows))
    return len(rows)


def once(words, room):
    """The part file without its comments, seconds and megabytes of one run."""
    with open(f"{room}/part", "wb") as out, open(f"{room}/told", "wb") as told:
        subprocess.run(["/usr/bin/time", "-f", "%U %S %M", "-o", f"{room}/spent", *words], stdout=out, stderr=told, check=True)
    user, system, peak = open(f"{room}/spent", encoding="ascii").read().split()[-3:]
    with open(f"{room}/part", "rb") as file:
        text = b"".join(line for line in file if not line.startswith(b"#"))
    return text, float(user) + float(system), int(peak) / 1024


def measured(args, path, within, room):
    best = {}
    for _ in range(args.runs):
        texts = []
        for name, words in (("vcm", [args.vcm, "blocks", path, "--within", within]), ("plain", [PLAIN, path, "--within", within])):
            text, seconds, peak = once(words, room)
            texts.append(text)
            kept = best.get(name, (math.inf, 0.0))
            best[name] = (min(kept[0], seconds), max(kept[1], peak))
        if texts[0] != texts[1]:
            print(f"{path}: the part files differ")
    return best, texts[0].count(b"[[block]]")


def main():
    parser = argparse.ArgumentParser(description=__doc__, formatter_class=argparse.RawDescriptionHelpFormatter)
    parser.add_argument("--vcm", default=f"{os.path.dirname(HERE)}/crates/vcm/out/vcm")
    parser.add_argument("--model", nargs=2, action="append", default=[])
    parser.add_argument("--runs", type=int, default=3)
    args = parser.parse_args()
    os.makedirs(os.path.dirname(PLAIN), exist_ok=True)
    subprocess.run(["rustc", "--edition", "2024", "-O", "-o", PLAIN, f"{HERE}/blocks/plain.rs"], check=True)
    with tempfile.TemporaryDirectory() as room:
        made = []
        for name, triangles, within in (("sphere", sphere(1000, 500), "1"), ("wavy", wavy(700, 703), "1"), ("small", sphere(64, 32, 25.0), "0.5")):
            save(f"{room}/{name}.stl", triangles)
            made.append((f"{room}/{name}.stl", within))
        print("| Model | Triangles | Within | Blocks | Seconds | of the plain program's | MB | of the plain program's |\n| --- | --- | --- | --- | --- | --- | --- | --- |")
        for path, within in made + args.model:
            best, blocks = measured(args, path, within, room)
            told = subprocess.run([args.vcm, "blocks", path, "--within", within], stdout=subprocess.DEVNULL, stderr=subprocess.PIPE, text=True, check=True).stderr
            count = told.split()[1]
            (mine, peak), (other, less) = best["vcm"], best["plain"]
            print(f"| `{os.path.basename(path)}` | {count} | {within} | {blocks} | {mine:.2f} | {mine / other:.2f} | {peak:.0f} | {peak / less:.2f} |", flush=True)


if __name__ == "__main__":
    sys.exit(main())
