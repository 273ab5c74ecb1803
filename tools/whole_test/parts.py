"""Workpieces: small blocks at the places that are touched, whose faces lie a little off the nominal ones, and what a tip meets of them."""
import random

from space import AXES, apart, behind

REACH = 900_000.0
HOME = (0.0, 0.0, 500.0)
TIP = 0.25


class Part:
    """Blocks in millimetres, and half the width of the tip."""

    grows = False

    def __init__(self, tip=TIP, blocks=()):
        self.tip, self.blocks, self.home = tip, list(blocks), HOME

    def touched(self, start, end, nominal, direction, radius):
        """How far along the way of a touch the tip meets something."""
        return self.met(start, end, radius)

    def met(self, start, end, radius):
        """How far along the way the tip meets a block, from 0 to 1; nothing where it meets none."""
        shares = [share for share in (entered(start, end, block, radius) for block in self.blocks) if share is not None]
        return min(shares, default=None)

    def written(self):
        """The part file."""
        def whole(point):
            return "[" + ", ".join(str(round(1000 * it)) for it in point) + "]"
        lines = [f"low = {whole((-REACH,) * 3)}", f"high = {whole((REACH,) * 3)}", f"home = {whole(self.home)}", f"tip = {round(1000 * self.tip)}"]
        for low, high in self.blocks:
            lines += ["[[block]]", f"low = {whole(low)}", f"high = {whole(high)}"]
        return "\n".join(lines) + "\n"


def entered(start, end, block, radius):
    """Where on a way a tip begins to touch one block, from 0 to 1."""
    begin, until = 0.0, 1.0
    for axis in AXES:
        low, high = block[0][axis] - radius, block[1][axis] + radius
        length = end[axis] - start[axis]
        if abs(length) < 1e-12:
            if not low <= start[axis] <= high:
                return None
            continue
        shares = sorted(((low - start[axis]) / length, (high - start[axis]) / length))
        begin, until = max(begin, shares[0]), min(until, shares[1])
    return begin if begin <= until else None


def block_at(place, direction, seed):
    """The block that a touch of a place meets, along an axis: its face up to 0.3 mm off the place, by the seed; at the place where there is no seed."""
    spot = tuple(round(it, 3) for it in place)
    off = random.Random(f"{seed}/{spot}").randint(-300, 300) / 1000 if seed is not None else 0.0
    axis = max(AXES, key=lambda it: abs(direction[it]))
    face, back = behind(spot, direction, off), behind(spot, direction, off - 0.1)
    low, high = [it - 0.05 for it in spot], [it + 0.05 for it in spot]
    low[axis], high[axis] = min(face[axis], back[axis]), max(face[axis], back[axis])
    return tuple(round(it, 3) for it in low), tuple(round(it, 3) for it in high)


class GrowingPart(Part):
    """A part that gets a block wherever something along an axis is touched."""

    grows = True

    def __init__(self, seed, tip=TIP):
        super().__init__(tip)
        self.seed = seed

    def touched(self, start, end, nominal, direction, radius):
        """The block of the nominal place alone is met."""
        block = block_at(nominal, direction, self.seed)
        if block not in self.blocks and apart(nominal, self.home) < REACH:
            self.blocks.append(block)
        return entered(start, end, block, radius)


def read(text):
    """The part of a part file, as far as it matters here. Of TOML it takes what such files have: keys with numbers or arrays of numbers, and blocks."""
    part, blocks, block = Part(tip=0.0), [], None
    for line in text.split("\n"):
        key, _, value = line.split("#")[0].partition("=")
        key, numbers = key.strip(), [int(it) / 1000 for it in value.replace("[", " ").replace("]", " ").replace(",", " ").replace("_", "").split() if it.lstrip("-+").isdigit()]
        if key == "[[block]]":
            block = {}
            blocks.append(block)
        elif block is not None and key in ("low", "high"):
            block[key] = tuple(numbers)
        elif key == "tip":
            part.tip = numbers[0]
        elif key == "home":
            part.home = tuple(numbers)
    part.blocks = [(it["low"], it["high"]) for it in blocks]
    return part
