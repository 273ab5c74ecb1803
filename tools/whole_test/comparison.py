"""Compares the ways that were tried with those of a machine, and those of the machine with what is told."""
from dataclasses import dataclass, field

from space import apart
from visits import spelled

WITHIN = 0.002
CUT = 0.03  # where values may be cut off: each coordinate, and each shift of its frame, by 0.005 at most


@dataclass
class Result:
    """What one comparison found: counts, and failures as pairs of a kind and a sentence."""

    ways: int = 0
    tried: int = 0
    elsewhere: int = 0
    wrong: list = field(default_factory=list)
    untold: list = field(default_factory=list)


def point(it):
    """A point in words."""
    return "(" + ", ".join(f"{x:.3f}" for x in it) + ")"


class Comparison:
    """One machine and one answer."""

    def __init__(self, machine, answer, within=WITHIN):
        self.machine, self.answer, self.within = machine, answer, within
        self.behind = within  # how exact the way before is
        self.order = {visit: number for number, visit in enumerate(machine.passed)}
        self.ways = {}
        for number, way in enumerate(machine.ways):
            self.ways.setdefault(way.visit, []).append((number, way))
        self.matched, self.last, self.result = set(), -1, Result()
        self.excuses = dict(answer.elsewhere)
        self.end = self.judged_to()

    def judged_to(self):
        """The number of the machine's visit from which on nothing is judged: where its course ends early, where the run stops, or where it is told that nothing is tried."""
        end = len(self.machine.passed) - bool(self.machine.stop)
        if self.answer.stop:
            end = min(end, self.order.get(self.answer.passed[-1], self.after_passed()))
        if self.answer.from_line:
            of_line = [self.order[it] for it in self.answer.passed if it[0] == self.answer.from_line and it in self.order]
            since = self.after_passed()
            of_line = of_line[-1:] or [number for visit, number in self.order.items() if visit[0] == self.answer.from_line and number >= since]
            end = min(end, of_line[0] if of_line else since)
        return end

    def after_passed(self):
        """The number of the machine's last visit that a tried way belongs to."""
        return max((self.order[it.visit] for it in self.answer.arrivals if it.visit in self.order), default=0)

    def exactness(self, line):
        """How far a tried way may lie from the machine's."""
        return max(self.within, self.answer.within.get(line, 0.0))

    def run(self):
        """The whole comparison."""
        self.result.ways = sum(way.at < self.end for way in self.machine.ways)
        self.result.tried = len(self.answer.arrivals)
        for arrival in self.judged():
            if not self.answer.otherwise.get(arrival.visit[0]):
                self.compare(arrival)
        self.untold()
        return self.result

    def judged(self):
        """The tried ways that are judged: where the machine's course ends early, those up to the last one of a visit that it makes."""
        arrivals = self.answer.arrivals
        while self.machine.stop and arrivals and arrivals[-1].visit not in self.order:
            arrivals = arrivals[:-1]
        return arrivals

    def wrong(self, kind, arrival, why):
        """A tried way that isn't the machine's."""
        self.result.wrong.append((kind, f"{spelled(arrival.visit)}: tried {point(arrival.start)} to {point(arrival.end)}, {why}"))

    def compare(self, arrival):
        """One tried way: which of the machine's ways of this visit it is."""
        candidates = [it for it in self.ways.get(arrival.visit, []) if it[0] not in self.matched]
        of_touch = arrival.word == "PTMEAS"
        found = self.of_touch(arrival, candidates) if of_touch else self.of_move(arrival, candidates)
        if not found and self.machine.stop and self.order.get(arrival.visit) == len(self.machine.passed) - 1:
            return
        if not candidates:
            self.wrong("no way", arrival, "the machine goes no way at this visit" if arrival.visit in self.order else "the machine makes no such visit")
            return
        if not found:
            ends = ", ".join(f"{way.what} {point(way.start)} to {point(way.end)}" for _, way in candidates[:4])
            self.wrong("another end" if not of_touch else "another touch", arrival, f"the machine goes: {ends}")
            self.matched.update(number for number, _ in (candidates if of_touch else candidates[:1]))
            return
        first, last = found
        if first < self.last:
            self.wrong("out of order", arrival, "the machine goes it earlier")
        self.last = last
        self.begins(arrival, self.machine.ways[first])

    def of_move(self, arrival, candidates):
        """The way that ends where a move ended, as first and last number."""
        within = self.exactness(arrival.visit[0])
        for number, way in candidates:
            if way.what != "touch" and apart(way.end, arrival.end) <= within:
                self.matched.add(number)
                return number, number
        return None

    def of_touch(self, arrival, candidates):
        """The ways that make up a touch with this end and this touched point."""
        within = self.exactness(arrival.visit[0])
        for (one, approach), (two, touch), (three, back) in zip(candidates, candidates[1:], candidates[2:]):
            if (approach.what, touch.what, back.what) != ("approach", "touch", "retract"):
                continue
            if apart(back.end, arrival.end) <= within and apart(touch.seen, arrival.seen) <= within:
                self.matched.update((one, two, three))
                return one, three
        return None

    def begins(self, arrival, way):
        """Whether a tried way begins where the machine's does, or on the way of a touch that wasn't tried, or is told to begin elsewhere."""
        line = arrival.visit[0]
        within, self.behind = max(self.exactness(line), self.behind), self.exactness(line)
        touches = [it for it in self.machine.ways if it.visit == arrival.visit and it.what == "touch"] if way.what == "retract" else []
        if apart(way.start, arrival.start) <= within or any(lies_on(arrival.start, it.start, it.end, within) for it in touches):
            return
        if self.excuses.get(line, 0) > 0:
            self.excuses[line] -= 1
            self.result.elsewhere += 1
            return
        self.wrong("another start", arrival, f"the machine goes from {point(way.start)}, and this isn't told")

    # ---- what is told

    def untold(self):
        """The machine's ways that weren't tried: each is told, and at least as often as the run came there without trying it."""
        self.left, self.used = dict(self.answer.told), set()
        passed = set(self.answer.passed)
        for number, way in enumerate(self.machine.ways):
            if number in self.matched or way.at >= self.end:
                continue
            if not self.is_told(way.visit, passed):
                known = any(self.answer.told.get(line) for line in lines_around(way.visit))
                kind = "told too seldom" if known else "not told"
                self.result.untold.append((kind, f"{spelled(way.visit)}: {way.what} {point(way.start)} to {point(way.end)}, {kind}"))

    def is_told(self, visit, passed):
        """Whether a visit is told by its own line or, where the run didn't come to it, by that of a block or call around it."""
        one = visit
        while one:
            if one in self.used:
                return True
            if one is visit or visit not in passed:
                for line in self.lines_of(one):
                    if self.left.get(line, 0) > 0:
                        self.left[line] -= one in passed
                        self.used.add(one)
                        return True
            one = one[2]
        return False

    def lines_of(self, visit):
        """The lines that a visit is told by: its own, and that of the call that it marks."""
        return [visit[0]] + [it for it in [self.machine.program.call_lines.get(visit[0])] if it]


def lines_around(visit):
    """The lines of a visit and of the blocks around it."""
    while visit:
        yield visit[0]
        visit = visit[2]


def lies_on(place, start, end, within):
    """Whether a place lies on a straight way."""
    length = sum((end[i] - start[i]) ** 2 for i in range(3))
    share = sum((place[i] - start[i]) * (end[i] - start[i]) for i in range(3)) / length if length else 0.0
    share = min(1.0, max(0.0, share))
    return apart(place, tuple(start[i] + share * (end[i] - start[i]) for i in range(3))) <= within
