#!/usr/bin/env python3
"""Writes docs/TRUSTED.md: the definitions that contracts and laws speak of, file by file, with the first sentence of each.

usage: tools/trusted.py [--check]     at the top of the repository

With --check nothing is written; the exit status is 1 where the file is not what would be written. Where one of these files speaks of an inner
definition it stops, since that one would have to be trusted too. The last column is computed: it follows the `use` lines of definitions from the promises of
each command (`PROMISES`) to all that they speak of.
"""
import os
import re
import sys

HEAD = """# The definitions that are trusted

Whoever believes what vcm proves believes that these files say what they mean to say: public contracts and laws name no other definition of `crates/`. What only
private contracts and proofs name stands in folders `specs/inner/`. One thing there counts all the same: what a value of a type with a model means to a contract (its
`ghost view`, a line of the type's own file in `src/`) may be such a definition, as `source_of` of an `Expr`, `tree_of` of a `Typed` and `turn_of`
of a `Turn`; of an expression and a typed one a public reader shows what they hold (`Expr::pieces`, `to_postfix`). Worked examples are theorems, computed by the checker.

What is trusted besides definitions, `PROVED.md` says; what the page `docs/vcm.html` rests on in place of the native program's C library and processor, `docs/BROWSER.md`.

The last column says what a file is part of. *The theorem*: of what it means that a run of a program's text shows what the statement table says (`IsSummary`); which commands rest on
it besides isn't told. Else the commands whose promises speak of it, by their contracts or by way of other definitions. *Laws* are statements that are proved of these definitions,
*examples* are computed ones: no command rests on either. *Calls*: no promise of a command comes to it in this way; contracts of public calls between crates do, or views of types.
The column is made from the `use` lines of whole files, so it names a command rather too often; views of types (above) aren't followed.

`tools/trusted.py` writes this list from the first sentence of each file, and follows what definitions use. It stops where a file of the list names an inner definition in its `use` lines; no theorem says that the list is whole.

`check --all` stands for the faults of lines and statements and for what a refusal is about, `adapt` for the adapted text. `survey` isn't there: what it tells has no contract.
"""

# Where each command's promise is said: contracts (`src/`) and definitions (`specs/`), as files or whole folders.
PROMISES = {
    "the theorem": ["vcm_run/specs/Programs.antt"],
    "check": ["vcm_job/src/checking.rt"],
    "run": ["vcm_run/specs/Printed.antt", "vcm_job/src/running.rt", "vcm_job/src/inputs.rt", "vcm_job/src/cutting.rt", "vcm_job/src/parts.rt"],
    "build": ["vcm_job/src/building.rt", "vcm_loader/src/loading.rt", "vcm_run/src/image.rt"],
    "list": ["vcm_job/src/listing.rt"],
    "debug": ["vcm_job/src/debugging.rt"],
    "dap": ["vcm_dap/src", "vcm_wire/src"],
    "trace": ["vcm_trace/src/lines.rt", "vcm_trace/src/rows.rt"],
    "points": ["vcm_trace/src/points.rt", "vcm_trace/src/rows.rt", "vcm_meant/src"],
    "margin": ["vcm_margin/src/widening.rt", "vcm_margin/specs/Printed.antt"],
    "clearance": ["vcm_clearance/src/clearing.rt", "vcm_boxes/src"],
    "picture": ["vcm_picture/src", "vcm_sheet/src", "vcm_svg/src"],
    "view": ["vcm_page/src/pages.rt", "vcm_story/src", "vcm_rows/src"],
    "why": ["vcm_why/src", "vcm_first_contact/src", "vcm_backtrace/src", "vcm_cause/src", "vcm_calls/src"],
    "contacts": ["vcm_contacts/src"],
    "part": ["vcm_keys/src"],
    "probe": ["vcm_hardware/src"],
    "check --all": ["vcm_survey/src/faults.rt", "vcm_sentences/src/sentences.rt", "vcm_diagnosis/src"],
    "adapt": ["vcm_survey/src/adapting.rt", "vcm_adapt/src", "vcm_classes/src"],
    "values": ["vcm_values/src"],
    "place": ["vcm_place/src", "vcm_summary/src"],
    "judge": ["vcm_judge/src", "vcm_summary/src"],
}

# What speaks of several views at once, and is for each of them.
VIEWS = {f"crates/{name}.antt": "`trace` `points` `margin` `clearance` `picture` `view` `why` `contacts` `values`" for name in ("vcm_views/specs/Views", "vcm_job/specs/Views", "vcm_job/specs/Given")}


def crates():
    with open("crates.txt", encoding="utf-8") as it:
        return [line.split(":")[0] for line in it if re.match(r"\w+:", line)]


def specs_of(crate):
    base = f"crates/{crate}/specs"
    for at, _, files in sorted(os.walk(base)):
        if at.endswith("/inner"):
            continue
        for name in sorted(files):
            if name not in ("Lib.antt", "inner.antt"):
                yield f"{at}/{name}"


def first_sentence(file):
    said = []
    with open(file, encoding="utf-8") as it:
        for line in it:
            if not line.startswith("--"):
                break
            said.append(line.removeprefix("--").strip())
    return re.match(r".*?\.(?=\s|$)", " ".join(said)).group()


def stop_on_inner(file):
    with open(file, encoding="utf-8") as it:
        if re.search(r"^use Rattle\.\w+\.specs\.inner\.", it.read(), re.M):
            sys.exit(f"{file} speaks of an inner definition")


def used(file):
    """The files of definitions that the `use` lines of a file name."""
    with open(file, encoding="utf-8") as it:
        for crate, path in re.findall(r"^\s*(?:ghost )?use Rattle\.(vcm_\w+)\.specs\.([\w.]+?)(?:\.\{| as |\s*$)", it.read(), re.M):
            named = f"crates/{crate}/specs/{path.replace('.', '/')}.antt"
            if os.path.isfile(named) and "/inner/" not in named:
                yield named


def files_at(place):
    at = f"crates/{place}"
    if not os.path.exists(at):
        sys.exit(f"no {at}, where a promise is said")
    return [at] if os.path.isfile(at) else [f"{at}/{name}" for name in sorted(os.listdir(at)) if name.endswith(".rt") and name != "laws.rt"]


def reached(places):
    """The files of definitions that these promises speak of."""
    left = [file for place in places for file in files_at(place)]
    found = set()
    while left:
        file = left.pop()
        if file not in found:
            found.add(file)
            left += used(file)
    return found


def kind_of(file):
    """What a file is that no promise speaks of."""
    name = file.rpartition("/")[2]
    return "laws" if name == "Laws.antt" else "examples" if "Sample" in file else None


def for_whom(file, reaching, laws):
    names = [name for name, files in reaching.items() if file in files]
    if "the theorem" in names:
        return "the theorem"
    named = " ".join(f"`{name}`" for name in names) or VIEWS.get(file)
    return named or kind_of(file) or ("laws" if file in laws else "calls")


def written():
    reaching = {name: reached(places) for name, places in PROMISES.items()}
    laws = {named for crate in crates() for file in specs_of(crate) if kind_of(file) == "laws" for named in reached([file.removeprefix("crates/")])}
    parts = [HEAD]
    for crate in crates():
        files = [*specs_of(crate)]
        if not files:
            continue
        parts.append(f"\n## {crate}\n\n| File | What it says | For |\n|---|---|---|\n")
        for file in files:
            stop_on_inner(file)
            parts.append(f"| `{file.removeprefix('crates/')}` | {first_sentence(file)} | {for_whom(file, reaching, laws)} |\n")
    return "".join(parts)


def main():
    text = written()
    if "--check" in sys.argv[1:]:
        with open("docs/TRUSTED.md", encoding="utf-8") as it:
            sys.exit(int(it.read() != text))
    with open("docs/TRUSTED.md", "w", encoding="utf-8") as it:
        it.write(text)


if __name__ == "__main__":
    main()
