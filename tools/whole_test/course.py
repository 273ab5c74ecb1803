"""What a text doesn't hold: answers of operators, where datums lie, what other programs and people do. All by a seed, and by line and number of the asking."""
import random

from space import Frame, added


class Course:
    """The answers of one run."""

    def __init__(self, seed):
        self.seed, self.asked = seed, {}

    def pick(self, what, line):
        """Chance for one asking: the same one for the same line and number in each machine."""
        number = self.asked[what, line] = self.asked.get((what, line), 0) + 1
        return random.Random(f"{self.seed}/{what}/{line}/{number}")

    def answer(self, line):
        """What an operator types."""
        return self.pick("answer", line).choice([0, 1, 2, 3, 5, 7, 12, 40])

    def lengths(self):
        """Approach, retract and search of a machine before a text sets them."""
        pick = self.pick("lengths", 0)
        return pick.choice([2.0, 2.54, 5.0]), pick.choice([2.0, 2.54, 5.0]), pick.choice([5.0, 10.0])

    def yes(self, what, line):
        """Whether something happens that may or may not."""
        return self.pick(what, line).random() < 0.5

    def place(self, what, line):
        """Where somebody or something leaves the probe."""
        pick = self.pick(what, line)
        return tuple(pick.randint(-400, 400) + 0.5 for _ in range(3))

    def frame(self, what, line):
        """Where a workpiece lies: an origin and a quarter turn or a smaller one."""
        pick = self.pick(what, line)
        origin = tuple(float(pick.randint(-90, 90)) for _ in range(3))
        angle = pick.choice([0.0, 0.01, 1.5707963267948966, 0.5])
        return Frame(origin=origin).turned(2, angle)

    def near(self, what, line, place):
        """Where a hand touches that was to touch a place."""
        pick = self.pick(what, line)
        return added(place, tuple(pick.randint(-20, 20) / 10 + 0.05 for _ in range(3)))
