"""Features, measurements and their values."""
import math

import motions
from settings import clearance_plane
from space import AXES, added, behind, dot, is_axis, of_length_one, scaled
from state import Feature, Stopped


def feature_of(machine, words, first, place, direction, is_polar):
    """A feature at a place of the machine, with the numbers that it has in the frame, unit and plane in force. `first` is the number of its first number among its words."""
    return Feature(place, direction, numbers(machine, place, direction, is_polar), (words, first), is_polar)


def numbers(machine, place, direction, is_polar):
    """The six numbers of a feature in the frame, units and work plane in force."""
    state = machine.state
    seen = state.frame.seen(place)
    sighted = state.frame.sighted(direction)
    if is_polar:
        normal = state.plane
        u, v = seen[(normal + 1) % 3], seen[(normal + 2) % 3]
        angle = math.atan2(v, u)
        return (math.hypot(u, v) / state.unit, angle if state.radians else math.degrees(angle), seen[normal] / state.unit, *sighted)
    return tuple(it / state.unit for it in seen) + sighted


def feature(machine, it):
    """FEAT: a nominal feature, kept where it lies in the machine."""
    words = [text.upper() for text in it.fields]
    where = next(i for i, word in enumerate(words) if word in ("CART", "POL"))
    place, behind_it, _ = motions.point(machine, it.fields[where:])
    direction = tuple(float(machine.variables.value(text)) for text in behind_it[:3])
    frame = machine.state.frame
    found = feature_of(machine, words, where + 2, frame.placed(place), frame.directed(direction), words[where] == "POL")
    name = machine.label(it.name)
    if it.kind == "FA":
        machine.state.actuals[name] = found
    else:
        machine.state.nominals[name] = found


def constructed(machine, it):
    """CONST and others that make an actual feature of others: the course says where it lies."""
    name = machine.label(it.name)
    place = machine.course.place("constructed", it.line)
    machine.state.actuals[name] = feature_of(machine, ["POINT", "CART"], 3, place, (0.0, 0.0, 1.0), False)


def measure(machine, it):
    """MEAS: the points up to ENDMES are of this feature."""
    state = machine.state
    state.measured, state.contacts, state.due = machine.label(it.fields[1]), [], True
    state.wanted = machine.variables.value(it.fields[2]) if len(it.fields) > 2 else 0


def direction_of(machine, behind_it, angle):
    """The direction out of the material at a point, in the machine: as it is written, or that of the nominal feature."""
    state = machine.state
    if len(behind_it) >= 3:
        written = tuple(float(machine.variables.value(text)) for text in behind_it[:3])
        if angle is not None and machine.reading.polar_direction == "in the plane":
            written = in_plane(state.plane, angle, written)
        direction = state.frame.directed(written)
    else:
        nominal = state.nominals[state.measured]
        direction = nominal.direction if machine.reading.nominal_direction == "in force" else state.frame.directed(nominal.numbers[3:])
    direction = of_length_one(direction)
    if direction is None:
        raise Stopped("no direction")
    return direction


def in_plane(normal, angle, written):
    """A direction whose numbers are outward, along the circle and along the normal."""
    first, second, found = (normal + 1) % 3, (normal + 2) % 3, [0.0] * 3
    cosine, sine = math.cos(angle), math.sin(angle)
    found[first], found[second] = cosine * written[0] - sine * written[1], sine * written[0] + cosine * written[1]
    found[normal] = written[2]
    return tuple(found)


def touch_point(machine, it):
    """PTMEAS: to the approach point, down to the contact, and back."""
    state = machine.state
    place, behind_it, angle = motions.point(machine, it.fields)
    nominal = state.frame.placed(place)
    direction = direction_of(machine, behind_it, angle)
    if state.mode == "MAN":
        state.contacts.append((machine.course.near("hand", it.line, nominal), direction))
        machine.jogged(it)
        return
    if state.mode == "AUTO" and machine.reading.automatic == "own":
        nominal = machine.course.near("own", it.line, nominal)
    if state.scanning and machine.reading.scanning == "scans":
        machine.go(behind(nominal, direction, state.radius), "scan")
        state.contacts.append((nominal, direction))
        return
    touched(machine, it, nominal, direction)


def touched(machine, it, nominal, direction):
    """The three ways of a touch."""
    state, reading = machine.state, machine.reading
    to_centre = reading.approach_from == "centre" or not state.compensated and reading.uncompensated == "centre"
    radius = 0.0 if to_centre else state.radius
    approach = behind(nominal, direction, state.approach + radius)
    motions.way_in(machine, approach)
    machine.go(approach, "approach")
    contact = contact_of(machine, nominal, direction)
    centre = behind(contact, direction, state.radius)
    machine.go(centre, "touch", seen=state.frame.seen(contact))
    state.contacts.append((contact if state.compensated or reading.uncompensated == "nothing" else centre, direction))
    machine.go(behind(contact if reading.retract_from == "contact" else nominal, direction, state.retract + radius), "retract", clear=direction)


def contact_of(machine, nominal, direction):
    """Where the tip touches: along an axis what the part has there, else the nominal place."""
    if not is_axis(direction):
        return nominal
    direction = tuple(float(round(it)) for it in direction)
    state, start = machine.state, machine.state.place
    end = behind(nominal, direction, state.radius - state.search)
    share = machine.part.touched(start, end, nominal, direction, state.radius)
    if share is None:
        raise Stopped("missed")
    centre = added(start, scaled(added(end, scaled(start, -1)), share))
    return behind(centre, direction, -state.radius)


def measured(machine, it):
    """ENDMES: the feature has its actual value, and the probe goes back to the clearance plane."""
    state = machine.state
    if len(state.contacts) < state.wanted and machine.reading.missing_points == "its own" and state.contacts:
        state.contacts.append((machine.course.near("missing", it.line, state.contacts[0][0]), state.contacts[0][1]))
        machine.jogged(it)
    if state.contacts:
        nominal = state.nominals.get(state.measured)
        place = scaled(tuple(sum(contact[i] for contact, _ in state.contacts) for i in AXES), 1 / len(state.contacts))
        words, first = nominal.words if nominal else (["POINT", "CART"], 3)
        is_polar = bool(nominal and nominal.polar)
        state.actuals[state.measured] = feature_of(machine, words, first, place, state.contacts[-1][1], is_polar)
        if state.clearance and state.mode != "MAN":
            plane, normal = clearance_plane(machine)
            up = dot(normal, plane) - dot(normal, state.place)
            if up > 0:
                machine.go(behind(state.place, normal, up), "clearance")
    state.measured, state.contacts, state.due = "", [], False


def obtain(machine, it):
    """OBTAIN: a number of a feature, by the reading as it is now or as it was recorded."""
    is_actual = it.fields[0].upper().startswith("FA(")
    store = machine.state.actuals if is_actual else machine.state.nominals
    name = machine.label(it.fields[0])
    if name not in store:
        raise Stopped(f"no value of {name}")
    kept = store[name]
    reading = machine.reading.actual_values if is_actual else machine.reading.nominal_values
    found = numbers(machine, kept.place, kept.direction, kept.polar) if reading == "in force" else kept.numbers
    words, first = kept.words
    machine.variables.assign(it.name, found[int(it.fields[1]) - first])


STATEMENTS = {
    "FEAT": feature, "CONST": constructed, "MEAS": measure, "PTMEAS": touch_point, "ENDMES": measured, "OBTAIN": obtain,
}
