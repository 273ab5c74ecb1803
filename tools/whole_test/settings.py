"""Statements that move nothing by themselves: units, modes, sensors, the words of SNSET, frames, variables, questions."""
import math

from space import AXES, Frame, UNTURNED, behind, of_length_one
from state import Stopped

LENGTHS = {"MM": 1.0, "CM": 10.0, "M": 1000.0, "INCH": 25.4, "FEET": 304.8}
PLANES = {"YZPLAN": 0, "ZXPLAN": 1, "XYPLAN": 2}
HARMLESS = set(
    "DMISMN FILNAM FEDRAT ACLRAT FINPOS RAPID FLY DECPL DISPLY OUTPUT EVAL TOL VFORM ENDIF ENDSEL LABEL CASE DFTCAS GEOALG TECOMP GECOMP "
    "DMESWV PARTID PARTRV OPERID LOTID ERROR BADTST PARTSN TOOLDF CUTCOM".split()
)


def units(machine, it):
    """UNITS: from here on, in the order of carrying out."""
    for word in (text.upper() for text in it.fields):
        if word in LENGTHS:
            machine.state.unit = LENGTHS[word]
        elif word in ("ANGDEC", "ANGRAD"):
            machine.state.radians = word == "ANGRAD"


def mode(machine, it):
    """MODE: the first word is what the machine does where it can. Under MAN the operator has the probe."""
    machine.state.mode = it.fields[0].upper()
    if machine.state.mode == "MAN":
        machine.jogged(it)


def sensor_settings(machine, it):
    """SNSET: any number of words, each with its value."""
    words, state = [text.upper() for text in it.fields], machine.state
    while words:
        word = words.pop(0)
        if word in ("APPRCH", "RETRCT", "SEARCH"):
            setattr(state, word.lower().replace("apprch", "approach").replace("retrct", "retract"), machine.length(words.pop(0)))
        elif word == "CLRSRF":
            words = clearance(machine, words)
        elif words:
            words.pop(0)


def clearance(machine, words):
    """The plane that the probe goes over before and behind a measurement. Gives the words that are left."""
    first = words.pop(0)
    machine.state.clearance = machine.state.clearance_of = None
    if first.startswith("F("):
        plane = machine.state.nominals[machine.label(first)]
        normal = of_length_one(plane.direction)
        height = machine.length(words.pop(0)) if words and words[0] not in ("APPRCH", "RETRCT", "SEARCH", "DEPTH", "FOCUSN") else 0.0
        machine.state.clearance = behind(plane.place, normal, height), normal
        machine.state.clearance_of = machine.label(first), height
    return words


def clearance_plane(machine):
    """A point of the clearance plane and its direction, by the reading; nothing where none is set."""
    state = machine.state
    if state.clearance and state.clearance_of and machine.reading.clearance_plane == "at use":
        name, height = state.clearance_of
        plane = state.nominals[name]
        normal = of_length_one(plane.direction)
        return behind(plane.place, normal, height), normal
    return state.clearance


def sensor_defined(machine, it):
    """SNSDEF: the width is the last number."""
    numbers = [text for text in it.fields if text.replace(".", "").replace("-", "").isdigit()]
    machine.state.sensors[machine.label(it.name)] = machine.length(numbers[-1]) / 2


def sensor_chosen(machine, it):
    """SNSLCT: another sensor, or another angle of it, moves the head or goes to the rack. The first one may be the one that is on."""
    state, words = machine.state, ",".join(it.fields).upper()
    if words != state.sensor and (state.sensor or machine.course.yes("mounted", it.line)):
        machine.jogged(it)
    state.sensor = words
    state.radius = state.sensors.get(machine.label(it.fields[0]), state.radius)


def saved_under(machine, it, frame):
    """A frame is in force, and kept under its name."""
    machine.state.frame = machine.state.frames[machine.label(it.name)] = frame


def shift(machine, it):
    """TRANS: by values, along the frame's own axes; by anything else, the course says where to."""
    offset, fields = [0.0] * 3, list(it.fields)
    while fields:
        axis, amount = "XYZ".find(fields.pop(0)[:1].upper()), fields.pop(0)
        if axis < 0 or "(" in amount and amount.upper().startswith(("DAT(", "FA(", "F(")) or amount.upper() == "PROBE":
            saved_under(machine, it, machine.course.frame("frame", it.line))
            return
        offset[axis] = machine.length(amount)
    saved_under(machine, it, machine.state.frame.shifted(tuple(offset)))


def turn(machine, it):
    """ROTATE: about an axis of the frame by an angle in the unit in force; by anything else, the course says how."""
    axis = ("XAXIS", "YAXIS", "ZAXIS").index(it.fields[0].upper())
    if len(it.fields) != 2 or it.fields[1].upper().startswith(("DAT(", "FA(", "F(")):
        saved_under(machine, it, machine.course.frame("frame", it.line))
        return
    angle = machine.variables.value(it.fields[1])
    saved_under(machine, it, machine.state.frame.turned(axis, angle if machine.state.radians else math.radians(angle)))


def datum(machine, it):
    """DATDEF: a feature becomes a datum."""
    feature = machine.label(it.fields[0])
    store = machine.state.actuals if it.fields[0].upper().startswith("FA(") else machine.state.nominals
    machine.state.datums[machine.label(it.fields[1])] = store, feature, store.get(feature)


def datum_place(machine, name):
    """Where a datum lies, by the reading; nothing where it isn't known."""
    if name not in machine.state.datums:
        return None
    store, feature, bound = machine.state.datums[name]
    it = bound if machine.reading.datum_bound == "at DATDEF" else store.get(feature)
    return it and it.place


def datum_frame(machine, it):
    """DATSET: the machine's coordinates; an origin by datums; or a frame that the course gives."""
    fields, frame = [text.upper() for text in it.fields], machine.state.frame
    if fields == ["MCS"]:
        saved_under(machine, it, Frame())
        return
    offset = [0.0] * 3
    for name, word in zip(it.fields[::2], fields[1::2]):
        place = datum_place(machine, machine.label(name))
        if not word.endswith("ORIG") or place is None:
            saved_under(machine, it, machine.course.frame("datum", it.line))
            return
        axis = "XYZ".index(word[0])
        offset[axis] = frame.seen(place)[axis]
    found = frame.shifted(tuple(offset))
    saved_under(machine, it, found if machine.reading.origins_alone == "keeps turn" else Frame(UNTURNED, found.origin))


def recall(machine, it):
    """RECALL: of a frame of the text, or of one that a device holds."""
    if not it.fields[0].upper().startswith(("D(", "DA(")):
        machine.others_ran(it)
        return
    name, state = machine.label(it.fields[0]), machine.state
    if len(it.fields) > 1:
        found = state.stored.get((name, it.fields[1].upper())) or machine.course.frame("recall", it.line)
        state.frame = state.frames[name] = found
        return
    if name not in state.frames:
        raise Stopped(f"no frame {name}")
    state.frame = state.saved.get(name, state.frames[name]) if machine.reading.recalled == "saved" else state.frames[name]


def save(machine, it):
    """SAVE: the frame as it is now."""
    if it.fields[0].upper().startswith(("D(", "DA(")):
        name = machine.label(it.fields[0])
        if name in machine.state.frames:
            machine.state.saved[name] = machine.state.frames[name]
            if len(it.fields) > 1:
                machine.state.stored[name, it.fields[1].upper()] = machine.state.frames[name]


def text(machine, it):
    """TEXT: to the operator, who may have to do something, or to answer."""
    word = it.fields[0].upper()
    if word == "MAN":
        machine.jogged(it)
    elif word == "QUERY":
        machine.asked(it, it.fields[1:2])


def prompt(machine, it):
    """PROMPT: which of the variables that it names are answered."""
    known = {name for scope in machine.variables.scopes for name in scope}
    machine.asked(it, [name for name in [it.name, *it.fields] if name.upper() in known])


def read(machine, it):
    """READ: which of the variables that it names come from a file."""
    known = {name for scope in machine.variables.scopes for name in scope}
    machine.asked(it, [name for name in it.fields if name.upper() in known])


def from_machine(machine, it):
    """VALUE: a variable has something of the machine."""
    machine.asked(it, [it.name])


def delete(machine, it):
    """DELETE: a frame or a feature is no more, by the reading or the course."""
    name, state = machine.label(it.fields[0]), machine.state
    kind = it.fields[0].upper().partition("(")[0]
    stores = {"D": [state.frames, state.saved], "DA": [state.frames, state.saved], "F": [state.nominals], "FA": [state.actuals]}[kind]
    if machine.course.yes("deleted", it.line):
        for store in stores:
            store.pop(name, None)


def fitted(machine, it):
    """LOCATE: a frame that the course gives."""
    saved_under(machine, it, machine.course.frame("located", it.line))


def assign(machine, it):
    """ASSIGN of a value to a variable."""
    machine.variables.assign(it.name, machine.variables.value(it.fields[0]))


def declare(machine, it):
    """DECL of variables."""
    machine.variables.declare(it.line, it.fields)


def native(machine, it):
    """DMIS/OFF: what stands up to DMIS/ON is the machine's own, and may change anything."""
    if it.fields == ["OFF"]:
        machine.others_ran(it)
        machine.state.native = True


def changed_by_others(machine, it):
    """What others leave behind: each thing that is carried may be another one."""
    state, pick = machine.state, machine.course.pick("others", it.line)
    frame = Frame(origin=tuple(pick.randint(-50, 50) / 1.0 for _ in AXES))
    changes = [
        lambda: setattr(state, "frame", frame), lambda: state.frames.update({name: frame for name in state.frames}),
        lambda: setattr(state, "unit", pick.choice([1.0, 25.4])), lambda: setattr(state, "mode", pick.choice(["PROG", "MAN"])),
        lambda: setattr(state, "radians", True), lambda: setattr(state, "plane", pick.choice([0, 1, 2])),
        lambda: setattr(state, "approach", 4.5), lambda: setattr(state, "retract", 4.5), lambda: setattr(state, "search", 6.5),
        lambda: (setattr(state, "clearance", ((0.0, 0.0, 600.0), (0.0, 0.0, 1.0))), setattr(state, "clearance_of", None)), lambda: setattr(state, "sensor", "ANOTHER"),
        lambda: setattr(state, "scanning", True), lambda: setattr(state, "compensated", False), lambda: machine.jogged(it),
        lambda: setattr(state, "home", (5.0, 6.0, 507.0)),
    ]
    for change in changes:
        if pick.random() < 0.4:
            change()
    for store in (state.nominals, state.actuals):
        for feature in store.values():
            if pick.random() < 0.4:
                feature.place = machine.course.near("feature", it.line, feature.place)
    for name in dict.fromkeys(machine.variables.shared):
        if not isinstance(machine.variables.look(name, 0), bool) and pick.random() < 0.4:
            machine.variables.assign(name, pick.randint(0, 9), 0)


def switch(name):
    """A statement with ON or OFF that sets something of the state."""
    return lambda machine, it: setattr(machine.state, name, it.fields[0].upper() == "ON")


def module(machine, it):
    """DMISMD: the text is called by another one, whose state it has at its start."""
    changed_by_others(machine, it)


STATEMENTS = {
    "DMISMD": module, "UNITS": units, "MODE": mode, "SNSET": sensor_settings, "SNSDEF": sensor_defined, "SNSLCT": sensor_chosen, "TRANS": shift, "ROTATE": turn,
    "DATDEF": datum, "DATSET": datum_frame, "RECALL": recall, "SAVE": save, "TEXT": text, "PROMPT": prompt, "ASSIGN": assign, "DECL": declare,
    "READ": read, "VALUE": from_machine, "DELETE": delete, "LOCATE": fitted,
    "DMIS": native, "PRCOMP": switch("compensated"), "SCNMOD": switch("scanning"),
    "WKPLAN": lambda machine, it: setattr(machine.state, "plane", PLANES[it.fields[0].upper()]),
}
