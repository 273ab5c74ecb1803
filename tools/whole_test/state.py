"""What a machine carries from statement to statement."""
from dataclasses import dataclass, field

from parts import HOME, TIP
from space import Frame


@dataclass(frozen=True)
class Way:
    """A straight way of the probe: the visit, whose line it belongs to, where it begins and ends, and what it is. `seen` is a touched point in part coordinates."""

    visit: tuple
    start: tuple
    end: tuple
    what: str
    at: int
    seen: tuple = None


@dataclass
class Feature:
    """A nominal or a measured feature: in the machine, and as it was written or recorded, with the frame of that."""

    place: tuple
    direction: tuple
    numbers: tuple
    words: tuple
    polar: bool = False


@dataclass
class State:
    """The state of a machine, but for variables and for where it is in the text. Lengths are millimetres."""

    place: tuple = HOME
    frame: Frame = field(default_factory=Frame)
    frames: dict = field(default_factory=dict)
    saved: dict = field(default_factory=dict)
    stored: dict = field(default_factory=dict)
    unit: float = 1.0
    radians: bool = False
    mode: str = "PROG"
    plane: int = 2
    approach: float = 0.0
    retract: float = 0.0
    search: float = 0.0
    clearance: tuple = None
    clearance_of: tuple = None
    sensor: str = ""
    radius: float = TIP
    sensors: dict = field(default_factory=dict)
    table: float = 0.0
    scanning: bool = False
    compensated: bool = True
    home: tuple = HOME
    home_numbers: tuple = None
    nominals: dict = field(default_factory=dict)
    actuals: dict = field(default_factory=dict)
    datums: dict = field(default_factory=dict)
    target: tuple = None
    measured: str = ""
    contacts: list = field(default_factory=list)
    wanted: int = 0
    due: bool = False
    native: bool = False


class Stopped(Exception):
    """The machine's course ends here: an event, or something that this interpreter doesn't know."""
