"""What machines may read differently in the standard: one field for each doubt, and the readings that are tried."""
import dataclasses
from dataclasses import dataclass


@dataclass(frozen=True)
class Reading:
    """How one machine reads the standard where that leaves room. The first value of each is the likeliest."""

    actual_values: str = "in force"  # OBTAIN of FA: in the frame and unit in force, or as recorded
    nominal_values: str = "in force"  # OBTAIN of F: likewise, or as in its FEAT
    nominal_direction: str = "in force"  # PTMEAS without a direction: the nominal's, turned with frames, or its numbers in the frame in force
    arguments: str = "value"  # of a macro: value, reference (a variable's name is that variable), name (the expression, each time)
    index_after: str = "past"  # of a DO that has ended: past the limit, or the last one
    whole_quotient: str = "truncated"  # of two whole numbers: truncated, or a real
    home_frame: str = "bound"  # FROM: bound to the frame in force, or numbers for the one at GOHOME
    datum_bound: str = "at DATDEF"  # what a datum has: the values at DATDEF, or those at DATSET
    origins_alone: str = "keeps turn"  # DATSET of origins alone: the turn of the frame stays, or the axes are the machine's
    recalled: str = "defined"  # RECALL of a frame that was saved and then defined anew: the one last defined, or the saved one
    uncompensated: str = "centre"  # PRCOMP/OFF: values are the ball's centre, or it changes nothing
    scanning: str = "scans"  # SCNMOD/ON: points are ends of scans, or it changes nothing
    label_case: str = "same"  # D(a) and D(A): the same, or two
    table: str = "carries"  # ROTAB: frames go along with the table, or stay
    polar_direction: str = "cartesian"  # direction behind a polar place
    clearance_above: str = "stays"  # a probe above the clearance plane: stays at its height on the way across, or goes to the plane
    clearance_in: str = "point"  # the way in over the plane: at the first point, or at what comes first behind MEAS
    clearance_plane: str = "at SNSET"  # where a clearance plane lies: as its feature lay at SNSET, or as it lies when it is used
    missing_points: str = "none"  # MEAS of more points than stand in it: nothing more, or the machine takes them by itself at ENDMES
    # What follows is for the call of the run to say, and so no reading that is tried by itself.
    automatic: str = "programmed"  # MODE/AUTO: as programmed, or by its own points
    approach_from: str = "surface"  # the approach distance: to the ball's surface, or to its centre
    retract_from: str = "contact"  # the way back: from the contact, or from the nominal place


OTHERS = {
    "actual_values": ["recorded"], "nominal_values": ["recorded"], "nominal_direction": ["numbers"], "arguments": ["reference", "name"],
    "index_after": ["last"], "whole_quotient": ["real"], "home_frame": ["numbers"], "datum_bound": ["at DATSET"],
    "origins_alone": ["machine axes"], "recalled": ["saved"], "uncompensated": ["nothing"], "scanning": ["nothing"], "label_case": ["two"],
    "table": ["stays"], "polar_direction": ["in the plane"], "clearance_above": ["goes to plane"], "clearance_in": ["MEAS"],
    "clearance_plane": ["at use"], "missing_points": ["its own"],
}
OF_THE_CALL = {"automatic": ["own"], "approach_from": ["centre"], "retract_from": ["nominal"]}


def mixed(pick, share):
    """A reading with some of its fields, at random, read the other way."""
    return Reading(**{name: pick.choice(values) for name, values in OTHERS.items() if pick.random() < share})


def tried(pick, fixed):
    """The readings that a text is tried with: the likeliest, the opposite of it, and mixtures. `fixed` holds fields that all of them have."""
    opposite = Reading(**{name: pick.choice(values) for name, values in OTHERS.items()})
    found = {"likeliest": Reading(), "opposite": opposite, "mixed": mixed(pick, 0.4), "one": one_off(pick)}
    return {name: dataclasses.replace(reading, **fixed) for name, reading in found.items()}


def one_off(pick):
    """The likeliest reading but for one field."""
    name = pick.choice(sorted(OTHERS))
    return Reading(**{name: pick.choice(OTHERS[name])})


def told(reading):
    """The fields of a reading that aren't the likeliest ones."""
    plain = Reading()
    changed = [f"{it.name}: {getattr(reading, it.name)}" for it in dataclasses.fields(reading) if getattr(reading, it.name) != getattr(plain, it.name)]
    return "; ".join(changed) or "the likeliest in all"
