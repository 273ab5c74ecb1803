"""Statements that move the probe without measuring, and the table."""
import math

from settings import clearance_plane
from space import behind, dot, of_length_one
from state import Stopped


def polar(machine, fields):
    """A polar place in the work plane, as a point of the part, and its angle in radians."""
    radius, height = machine.length(fields[0]), machine.length(fields[2])
    angle = machine.variables.value(fields[1])
    angle = angle if machine.state.radians else math.radians(angle)
    normal, point = machine.state.plane, [0.0] * 3
    point[normal] = height
    point[(normal + 1) % 3], point[(normal + 2) % 3] = radius * math.cos(angle), radius * math.sin(angle)
    return tuple(point), angle


def point(machine, fields):
    """A place as fields give it, in the part: the point, the fields behind it, and the angle of a polar one."""
    word = fields[0].upper()
    if word == "POL":
        place, angle = polar(machine, fields[1:])
        return place, fields[4:], angle
    fields = fields[1:] if word == "CART" else fields
    return tuple(machine.length(text) for text in fields[:3]), fields[3:], None


def over(machine, normal, height, end):
    """Up to the clearance plane and across it, to above where the probe is to go."""
    place = machine.state.place
    up = height - dot(normal, place)
    if up > 0 or machine.reading.clearance_above == "goes to plane" and up < 0:
        machine.go(behind(place, normal, up), "clearance")
    level = dot(normal, machine.state.place)
    machine.go(behind(end, normal, level - dot(normal, end)), "clearance")


def way_in(machine, end):
    """The way over the clearance plane, where one is set and it is due."""
    state = machine.state
    if state.due and state.clearance:
        plane, normal = clearance_plane(machine)
        over(machine, normal, dot(normal, plane), end)
    state.due = False


def goto(machine, it):
    """GOTO: a straight way of the tip's centre. Under MODE/MAN the operator goes where he wants."""
    state = machine.state
    if state.mode == "MAN":
        machine.jogged(it)
        return
    if it.fields[0].upper() == "INCR":
        direction = of_length_one(tuple(machine.variables.value(text) for text in it.fields[2:5]))
        end = behind(state.place, state.frame.directed(direction), machine.length(it.fields[1]))
    else:
        place, behind_it, _ = point(machine, it.fields)
        if behind_it:
            raise Stopped("words behind a place")
        end = state.frame.placed(place)
    if state.measured and machine.reading.clearance_in == "MEAS":
        way_in(machine, end)
    machine.go(end, "goto")


def home(machine, it):
    """GOHOME: a straight way."""
    state = machine.state
    if state.mode == "MAN":
        machine.jogged(it)
    elif machine.reading.home_frame == "numbers" and state.home_numbers:
        machine.go(state.frame.placed(state.home_numbers), "home")
    else:
        machine.go(state.home, "home")


def home_is(machine, it):
    """FROM: where home is."""
    machine.state.home_numbers = point(machine, it.fields)[0]
    machine.state.home = machine.state.frame.placed(machine.state.home_numbers)


def target(machine, it):
    """GOTARG: where the moves up to ENDGO lead to."""
    machine.state.target = machine.state.frame.placed(point(machine, it.fields)[0])


def target_reached(machine, it):
    """ENDGO: the last way, to the target."""
    if machine.state.mode == "MAN":
        machine.jogged(it)
    else:
        machine.go(machine.state.target, "target")


def table(machine, it):
    """ROTAB: the table turns, with it the frames by the reading; the probe may be drawn back before."""
    state, words = machine.state, [text.upper() for text in it.fields]
    angle = machine.variables.value(words[-1])
    angle = angle if state.radians else math.radians(angle)
    angle = -angle if "CW" in words else angle
    turned = angle if "INCR" in words else angle - state.table
    state.table += turned
    if machine.reading.table == "carries":
        state.frame = state.frame.carried(2, turned)
        state.frames = {name: frame.carried(2, turned) for name, frame in state.frames.items()}
    if machine.course.yes("drawn back", it.line):
        machine.jogged(it)


STATEMENTS = {"GOTO": goto, "GOHOME": home, "FROM": home_is, "GOTARG": target, "ENDGO": target_reached, "ROTAB": table}
