"""What the program answers to a text: the ways that it tried, from its trace, and what it tells as not tried.

Told lines are read here alone. Each has a label, a count, and lines: `not tried 5: lines 24-26 30(3), by hand since line 11`. A line stands alone, in a range, or with how often
it is told. `not tried from line 76 on` stands by itself. Labels that nothing here knows are left aside.
"""
import csv
import io
import re
import subprocess
from dataclasses import dataclass, field

from visits import Visits

TOLD = re.compile(r"(?P<label>[a-z][a-z, ]*?) (?P<count>\d+): lines? (?P<lines>\d[\d() -]*)(?:, (?P<cause>.*))?$")
FROM_ON = re.compile(r"not tried from line (\d+) on")
LINES = re.compile(r"(\d+)(?:-(\d+))?(?:\((\d+)\))?")
APPROACHED = "approached, not touched"
NOT_TRIED = {"not tried", APPROACHED}
ELSEWHERE = {"begins elsewhere", "begin elsewhere"}
OTHERWISE = {"may go otherwise"}
WITHIN = re.compile(r"to 0\.(\d+)")
MOST_SECONDS = 60
# A point that is approached has a direction in thousandths: with distances of 20 mm at most its places lie so far beside the machine's at most, in millimetres.
BESIDE = 0.02


@dataclass
class Arrival:
    """A way that was tried: the visit, where it begins and ends, its statement's word, and for a touch what was touched, in part coordinates."""

    visit: tuple
    start: tuple
    end: tuple
    word: str
    seen: tuple = None


@dataclass
class Answer:
    """All that is known of a run. `told` and `elsewhere` say how often each line is told; `within` how exact a line's ways are told to be, in millimetres."""

    arrivals: list = field(default_factory=list)
    passed: list = field(default_factory=list)
    told: dict = field(default_factory=dict)
    elsewhere: dict = field(default_factory=dict)
    otherwise: dict = field(default_factory=dict)
    within: dict = field(default_factory=dict)
    from_line: int = 0
    stop: str = ""
    refused: str = ""


def counted(text):
    """How often each line of a list of lines is told."""
    found = {}
    for first, last, number in LINES.findall(text):
        for line in range(int(first), int(last or first) + 1):
            found[line] = found.get(line, 0) + int(number or 1)
    return found


def tell(answer, text):
    """Enters what is told into an answer."""
    for line in text.split("\n"):
        on = FROM_ON.search(line)
        if on:
            answer.from_line = int(on[1])
            continue
        found = TOLD.match(line.strip())
        if not found:
            continue
        label, lines = found["label"].strip(), counted(found["lines"])
        if found["cause"] and WITHIN.search(found["cause"]):
            answer.within.update({it: float("0." + WITHIN.search(found["cause"])[1]) for it in lines})
        if label == APPROACHED:
            answer.within.update({it: BESIDE for it in lines})
        for labels, store in ((NOT_TRIED, answer.told), (ELSEWHERE, answer.elsewhere), (OTHERWISE, answer.otherwise)):
            if label in labels:
                store.update({it: store.get(it, 0) + number for it, number in lines.items()})


def trace(answer, text, program):
    """Enters the steps of a trace into an answer. A row tells where the probe is behind its step."""
    visits, place, seen_visits = Visits(program), None, set()
    for row in csv.DictReader(io.StringIO(text)):
        now = tuple(float(row[name]) for name in "xyz")
        line, statement = int(row["line"]), int(row["statement"] or 0)
        if row["done"].startswith(("stop", "no stop")):
            answer.stop = "" if row["done"].startswith("stop ENDED") else row["done"]
            answer.passed += [visits.at(line, statement)] if answer.stop else []
            return
        visit = visits.at(line, statement)
        if visit not in seen_visits:
            seen_visits.add(visit)
            answer.passed.append(visit)
        if row["word"] == "PTMEAS":
            seen = tuple(float(it) for it in row["done"].split()[1:4])
            answer.arrivals.append(Arrival(visit, place, now, "PTMEAS", seen))
        elif row["done"] == "moved":
            answer.arrivals.append(Arrival(visit, place, now, row["word"]))
        place = now


def ran(words):
    """What a call of the program prints on both outputs, and its exit status."""
    try:
        found = subprocess.run(words, capture_output=True, text=True, errors="replace", timeout=MOST_SECONDS)
    except subprocess.TimeoutExpired:
        return "", f"no answer after {MOST_SECONDS} seconds", 1
    return found.stdout, found.stderr, found.returncode


def asked(program_file, options, text_file, part_file, program, home):
    """The answer of the program to a text, by its trace and by what a run tells at its end."""
    answer = Answer()
    steps, errors, status = ran([program_file, "trace", "--whole", *options, text_file, part_file])
    if not steps.startswith("step,"):
        answer.refused = (errors or steps).strip().split("\n")[0] or f"exit status {status}"
        return answer
    trace(answer, steps, program)
    answer.arrivals[:1] = [Arrival(it.visit, it.start or home, it.end, it.word, it.seen) for it in answer.arrivals[:1]]
    tell(answer, ran([program_file, "run", "--whole", *options, text_file, part_file])[1])
    return answer
