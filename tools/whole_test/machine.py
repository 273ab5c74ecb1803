"""A measuring machine that reads a text of DMIS: the order of its statements, and where its probe goes."""
import measuring
import motions
import settings
from expressions import BadExpression
from space import behind
from state import State, Stopped, Way
from variables import Variables
from visits import Visits

MOST = 3000
STATEMENTS = {**settings.STATEMENTS, **motions.STATEMENTS, **measuring.STATEMENTS}


class Machine:
    """One machine with its reading of the standard and its course. `run` carries a text out; what it went stands in `ways`, the visits of lines in `passed`."""

    def __init__(self, program, part, reading, course):
        self.program, self.part, self.reading, self.course = program, part, reading, course
        self.state, self.variables = State(place=part.home, home=part.home, radius=part.tip), Variables(reading, course)
        self.state.approach, self.state.retract, self.state.search = course.lengths()
        self.visits, self.passed, self.ways = Visits(program), [], []
        self.at, self.calls, self.loops = 0, [], {}
        self.stop = ""

    # ---- the order of statements

    def run(self):
        """Carries the text out, to its end or to where the course ends."""
        try:
            while self.at < len(self.program.statements):
                if len(self.passed) >= MOST:
                    raise Stopped("too many statements")
                self.step(self.program.statements[self.at])
        except (Stopped, BadExpression, ValueError, IndexError, KeyError, ZeroDivisionError, OverflowError, TypeError) as why:
            self.stop = f"{type(why).__name__}: {why}"
        return self

    def step(self, it):
        """Carries one statement out."""
        self.at += 1
        if self.state.native:
            self.state.native = not (it.word == "DMIS" and it.fields == ["ON"])
            return
        self.passed.append(self.visits.begun(it.line))
        control = getattr(self, f"do_{it.word.lower()}", None)
        if control:
            control(it)
        elif it.word in STATEMENTS:
            STATEMENTS[it.word](self, it)
        elif it.word not in settings.HARMLESS:
            self.others_ran(it)

    def do_if(self, it):
        """Into the first block, the second one, or past both."""
        opened = self.at - 1
        if not self.variables.value(it.fields[0]):
            self.at = self.program.other.get(opened, self.program.end[opened]) + 1

    def do_else(self, it):
        """The end of a first block."""
        self.at = self.program.end[self.program.start[self.at - 1]] + 1

    def do_do(self, it):
        """The first round, or none."""
        opened = self.at - 1
        start, limit, *step = (self.variables.value(text) for text in it.fields[1:])
        step = step[0] if step else 1
        self.variables.assign(it.fields[0].upper(), start)
        self.loops[len(self.calls), opened] = limit, step
        if (start > limit) if step > 0 else (start < limit):
            self.at = self.program.end[opened] + 1

    def do_enddo(self, it):
        """The next round, or on behind the loop."""
        opened = self.program.start[self.at - 1]
        name = self.program.statements[opened].fields[0].upper()
        limit, step = self.loops[len(self.calls), opened]
        value = self.variables.look(name) + step
        ended = (value > limit) if step > 0 else (value < limit)
        if not ended or self.reading.index_after == "past":
            self.variables.assign(name, value)
        if not ended:
            self.at = opened + 1

    def do_select(self, it):
        """Into the block that is chosen, or past all."""
        opened, chosen = self.at - 1, self.variables.value(it.fields[0])
        cases = self.program.cases[opened]
        for case in cases:
            one = self.program.statements[case]
            if one.word == "DFTCAS" or chosen in [self.variables.value(text) for text in one.fields]:
                self.at = case + 1
                return
        self.at = self.program.end[opened] + 1

    def do_endcas(self, it):
        """The end of a block that was chosen."""
        self.at = self.program.end[self.program.start[self.at - 1]] + 1

    def do_macro(self, it):
        """A macro is passed over where it is written."""
        self.at = self.program.end[self.at - 1] + 1

    def do_call(self, it):
        """A call of a macro of the text, or of something else."""
        if not it.fields[0].upper().startswith("M("):
            self.others_ran(it)
            return
        name = it.fields[0][2:-1].upper()
        opened = self.program.macros[name]
        self.variables.call(self.program.statements[opened].fields, it.fields[1:])
        self.calls.append((self.at, name))
        self.at = opened + 1

    def do_endmac(self, it):
        """Back behind the call."""
        self.at, _ = self.calls.pop()
        self.variables.closed()

    def do_jumpto(self, it):
        """On at the label."""
        macro = self.calls[-1][1] if self.calls else ""
        self.at = self.program.labels[macro, it.fields[0].strip("() ").upper()]

    def do_endfil(self, it):
        """The end of the text."""
        self.at = len(self.program.statements)

    # ---- what statements of several kinds use

    def length(self, text):
        """A length as it is written, in millimetres."""
        return self.variables.value(text) * self.state.unit

    def label(self, text):
        """The name in a label such as `F(P1)`, by the reading and with a quoted parameter."""
        name = self.variables.named(text[text.index("(") + 1 : -1].strip() if "(" in text else text)
        return name.upper() if self.reading.label_case == "same" else name

    def go(self, end, what, seen=None, clear=None):
        """A straight way to a point. It may not meet a block, but for one that it ends at. `clear` is the direction away from one that it begins at."""
        start = behind(self.state.place, clear, 0.0005) if clear else self.state.place
        if not self.part.grows and what != "touch" and self.part.met(start, end, self.state.radius) is not None:
            raise Stopped("collision")
        self.ways.append(Way(self.passed[-1], self.state.place, end, what, len(self.passed) - 1, seen))
        self.state.place = end

    def jogged(self, it):
        """Somebody or something moves the probe away from where it was."""
        self.state.place = self.course.place("jog", it.line)

    def asked(self, it, names):
        """An operator answers."""
        for name in names:
            self.variables.assign(name.strip("() ").upper(), self.course.answer(it.line))

    def others_ran(self, it):
        """Something else runs that may change all that the machine carries."""
        settings.changed_by_others(self, it)
