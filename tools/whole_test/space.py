"""Points, directions and frames of a machine, in millimetres, as doubles."""
import math

AXES = range(3)
UNTURNED = ((1.0, 0.0, 0.0), (0.0, 1.0, 0.0), (0.0, 0.0, 1.0))


def added(a, b):
    """The sum of two vectors."""
    return tuple(a[i] + b[i] for i in AXES)


def scaled(a, factor):
    """A vector times a number."""
    return tuple(factor * it for it in a)


def behind(place, direction, length):
    """The point that lies a length along a direction from a place."""
    return added(place, scaled(direction, length))


def dot(a, b):
    """The product of two vectors that is a number."""
    return sum(a[i] * b[i] for i in AXES)


def apart(a, b):
    """The greatest difference of two points on an axis."""
    return max(abs(a[i] - b[i]) for i in AXES)


def of_length_one(a):
    """A direction with the length 1; nothing where it has none."""
    length = math.sqrt(dot(a, a))
    return scaled(a, 1 / length) if length > 1e-9 else None


def is_axis(direction):
    """Whether a direction goes along an axis of the machine, exactly enough to be touched so."""
    return sorted(abs(round(it, 9)) for it in direction) == [0, 0, 1]


def turn_about(axis, angle):
    """The turn about an axis by an angle in radians, right-handed."""
    cosine, sine = math.cos(angle), math.sin(angle)
    quarter = round(angle / (math.pi / 2))
    if abs(angle - quarter * math.pi / 2) < 1e-12:
        cosine, sine = ((1.0, 0.0), (0.0, 1.0), (-1.0, 0.0), (0.0, -1.0))[quarter % 4]
    first, second = (axis + 1) % 3, (axis + 2) % 3
    rows = [[0.0] * 3 for _ in AXES]
    rows[axis][axis] = 1.0
    rows[first][first] = rows[second][second] = cosine
    rows[first][second], rows[second][first] = -sine, sine
    return tuple(map(tuple, rows))


class Frame:
    """Part coordinates: a turn and an origin in the machine."""

    def __init__(self, turn=UNTURNED, origin=(0.0, 0.0, 0.0)):
        self.turn, self.origin = turn, origin

    def directed(self, direction):
        """A direction of the part, in the machine."""
        return tuple(dot(self.turn[i], direction) for i in AXES)

    def placed(self, point):
        """A point of the part, in the machine."""
        return added(self.origin, self.directed(point))

    def sighted(self, direction):
        """A direction of the machine, in the part."""
        return tuple(sum(self.turn[i][j] * direction[i] for i in AXES) for j in AXES)

    def seen(self, point):
        """A point of the machine, in the part."""
        return self.sighted(added(point, scaled(self.origin, -1)))

    def shifted(self, offset):
        """The frame with its origin shifted along its own axes."""
        return Frame(self.turn, self.placed(offset))

    def turned(self, axis, angle):
        """The frame turned about one of its own axes."""
        about = turn_about(axis, angle)
        rows = tuple(tuple(sum(self.turn[i][k] * about[k][j] for k in AXES) for j in AXES) for i in AXES)
        return Frame(rows, self.origin)

    def carried(self, axis, angle):
        """The frame as a table carries it along that turns about an axis of the machine."""
        about = Frame(turn_about(axis, angle))
        columns = [about.directed(tuple(self.turn[i][j] for i in AXES)) for j in AXES]
        return Frame(tuple(tuple(columns[j][i] for j in AXES) for i in AXES), about.directed(self.origin))
