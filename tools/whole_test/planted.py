"""Planted faults: what the comparison has to find.

In the place of the program stands a model of it: it carries a text out on several machines, with all readings and courses that are tried, and takes a way as certain where all
of them go it. What isn't certain it tells. With 0 nothing is wrong with the model, and the comparison has to find nothing. With 1 and more its machines are wrong in one respect,
or its answer is changed afterwards. Faults of the latter kind can be planted into the answer of a program, too.
"""
import dataclasses
import random
from collections import Counter

import settings
from answers import Answer, Arrival
from machine import Machine
from space import apart

NEAR = 0.001


class ByHandIsNothing(Machine):
    """Nobody moves the probe away."""

    def jogged(self, it):
        """The probe stays."""


class RecallIsKnown(Machine):
    """A frame that a device holds, or that datums give, is that of the text, or the one in force."""

    def step(self, it):
        """RECALL without its device; DATSET as if it set no frame."""
        if it.word == "RECALL":
            it = dataclasses.replace(it, fields=it.fields[:1])
        if it.word == "DATSET" and it.fields != ["MCS"]:
            it = dataclasses.replace(it, word="TRANS", fields=["XORIG", "0"])
        super().step(it)


class TableStands(Machine):
    """The table doesn't turn."""

    def step(self, it):
        """ROTAB is passed over."""
        super().step(dataclasses.replace(it, word="LABEL") if it.word == "ROTAB" else it)


class NobodyAnswers(Machine):
    """A question leaves its variable as it is."""

    def asked(self, it, names):
        """The variables stay."""


class UnitsAsWritten(Machine):
    """The unit is that of the UNITS last written above, not that of the one last carried out."""

    def step(self, it):
        """Sets the unit anew by the place in the text."""
        above = [one for one in self.program.statements[: self.at] if one.word == "UNITS"]
        if above and not self.calls:
            settings.units(self, above[-1])
        super().step(it)


class OthersDoNothing(Machine):
    """Other programs and unknown words change nothing."""

    def others_ran(self, it):
        """All stays."""


class FirstWordOnly(Machine):
    """Of SNSET the first word alone is read."""

    def step(self, it):
        """SNSET without its further words, unless it is for a clearance plane."""
        words = it.fields
        if it.word == "SNSET" and words[0].upper() != "CLRSRF":
            it = dataclasses.replace(it, fields=words[:2])
        super().step(it)


class OneReading(Machine):
    """Doubts of the standard are settled: all machines read it alike."""

    def __init__(self, program, part, reading, course):
        super().__init__(program, part, type(reading)(), course)


class ModeStays(Machine):
    """MODE/MAN is MODE/PROG."""

    def step(self, it):
        """MODE is always by program."""
        super().step(dataclasses.replace(it, fields=["PROG"]) if it.word == "MODE" else it)


class ScansAreTouches(Machine):
    """Under SCNMOD points are touched as without."""

    def step(self, it):
        """SCNMOD is passed over."""
        super().step(dataclasses.replace(it, word="LABEL") if it.word == "SCNMOD" else it)


# ---- faults of the answer


def keeps_the_place(answer, pick):
    """A way behind one that wasn't tried isn't told to begin elsewhere."""
    answer.elsewhere.clear()


def forgets_lines(answer, pick):
    """Some lines that weren't tried aren't told."""
    for line in sorted(answer.told):
        if pick.random() < 0.2:
            del answer.told[line]


def a_visit_late(answer, pick):
    """Ways of lines that are come to several times are those of the visit before."""
    last = {}
    for number, it in enumerate(answer.arrivals):
        before = last.get((it.visit[0], it.word))
        last[it.visit[0], it.word] = it
        if before and pick.random() < 0.5:
            answer.arrivals[number] = dataclasses.replace(before, visit=it.visit)


def a_little_off(answer, pick):
    """A way in twenty ends five micrometres off."""
    for it in answer.arrivals:
        if pick.random() < 0.05:
            it.end = (it.end[0], it.end[1], it.end[2] + 0.005)


def in_another_order(answer, pick):
    """Two ways that follow one another are told the other way round."""
    if len(answer.arrivals) > 4:
        number = pick.randrange(len(answer.arrivals) - 1)
        answer.arrivals[number : number + 2] = answer.arrivals[number : number + 2][::-1]


def counts_one_less(answer, pick):
    """A line that is told more than once is told once."""
    for line in answer.told:
        answer.told[line] = 1


PLANTED = [
    ("nothing", None, None),
    ("where somebody moves the probe the place isn't lost", ByHandIsNothing, None),
    ("RECALL of a device and DATSET by datums give a known frame", RecallIsKnown, None),
    ("ROTAB changes nothing", TableStands, None),
    ("a question doesn't lose its variable", NobodyAnswers, None),
    ("a motion that isn't tried keeps the place", None, keeps_the_place),
    ("the unit is the one last written", UnitsAsWritten, None),
    ("other programs change nothing", OthersDoNothing, None),
    ("one word of SNSET is read", FirstWordOnly, None),
    ("doubtful readings are taken as settled", OneReading, None),
    ("MODE is always by program", ModeStays, None),
    ("SCNMOD changes nothing", ScansAreTouches, None),
    ("one line in five isn't told", None, forgets_lines),
    ("a way is that of another visit", None, a_visit_late),
    ("a way ends five micrometres off", None, a_little_off),
    ("two ways are told in the other order", None, in_another_order),
    ("a line is told once for all its visits", None, counts_one_less),
]


def arrivals_of(machine):
    """The machine's ways as a program tells them: those of a touch in one."""
    found, ways = [], list(machine.ways)
    while ways:
        way = ways[0]
        if [it.what for it in ways[:3]] == ["approach", "touch", "retract"]:
            found.append(Arrival(way.visit, way.start, ways[2].end, "PTMEAS", ways[1].seen))
            ways = ways[3:]
        else:
            found.append(Arrival(way.visit, way.start, way.end, "GOTO"))
            ways = ways[1:]
    return found


def agreement(arrival, tables):
    """How far all machines go a way: not (0), from different places (1), or wholly (2)."""
    found = 2
    for table in tables:
        same = [it for it in table.get(arrival.visit, []) if it.word == arrival.word and apart(it.end, arrival.end) < NEAR]
        same = [it for it in same if not it.seen or apart(it.seen, arrival.seen) < NEAR]
        if not same:
            return 0
        found = min(found, 2 if apart(same[0].start, arrival.start) < NEAR else 1)
    return found


def certain(machines):
    """The answer that tries what all of some machines go, and tells all else."""
    answer, tables = Answer(), []
    for machine in machines:
        table = {}
        for arrival in arrivals_of(machine):
            table.setdefault(arrival.visit, []).append(arrival)
        tables.append(table)
        visited = Counter(visit[0] for visit in {it.visit for it in machine.ways})
        answer.told.update({line: max(answer.told.get(line, 0), count) for line, count in visited.items()})
    shortest = min(machines, key=lambda it: len(it.passed))
    for arrival in arrivals_of(shortest):
        how = agreement(arrival, tables)
        if how:
            answer.arrivals.append(arrival)
        if how == 1:
            answer.elsewhere[arrival.visit[0]] = answer.elsewhere.get(arrival.visit[0], 0) + 1
    answer.passed = shortest.passed
    return answer


def modelled(kind, machines, number):
    """The answer of the model with the wrong machines of a fault. `machines` makes the machines of all readings, of a kind of machine."""
    return certain(machines(PLANTED[number][1] or kind))


def change(answer, number, seed):
    """Changes an answer as the fault of a number says."""
    if PLANTED[number][2]:
        PLANTED[number][2](answer, random.Random(f"planted {seed}"))
