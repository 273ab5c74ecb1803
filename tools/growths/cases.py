"""The command lines whose growths of memory are refused.

Each command of the program, and each of its options, stands in one of them at least: `lacking` tells which doesn't. They are carried out in a folder that
has all of `examples/`, and the files that are made here.
"""
import dataclasses
import os
import re
import shutil
import sys

TOP = os.path.dirname(os.path.dirname(os.path.dirname(os.path.abspath(__file__))))
sys.path.insert(0, f"{TOP}/tools/dap")
import rows

HEAD = "DMISMN/'T'\nUNITS/MM,ANGDEC\n"
BOUNDS = "low = [-500000, -500000, -500000]\nhigh = [500000, 500000, 500000]\nhome = [0, 0, 100000]\n"

# Programs, parts and texts besides the examples.
FILES = {
    # a part whose blocks are cut into strips
    "twenty.toml": BOUNDS + "".join(f"[[block]]\nlow = [{20000 * i}, 10000, 0]\nhigh = [{20000 * i + 20000}, 30000, 20000]\n" for i in range(20)),
    # two probes, between which the head turns, and a program that chooses them; a producer's that selects them, and one that isn't there
    "heads.toml": "".join(
        f'[[probe]]\nname = "T{n}"\nnumber = {n}\npivot = {pivot}\n[[probe.box]]\nname = "shaft"\nlow = {low}\nhigh = {high}\n'
        for n, pivot, low, high in ((1, "[0, 0, 100000]", "[-700, -700, 5000]", "[700, 700, 50000]"), (2, "[0, 100000, 0]", "[-700, 5000, -700]", "[700, 50000, 700]"))
    ) + '[[swing]]\nname = "round"\nlow = [-20000, -110000, -110000]\nhigh = [20000, 110000, 30000]\n',
    "chosen.dmi": HEAD + "FEDRAT/POSVEL,MPM,4\nDECL/INTGR,PROBE\nPROBE=ASSIGN/1\nGOTO/0,0,180\nPROBE=ASSIGN/2\nGOTO/0,0,190\nENDFIL\n",
    "probed.dmi": HEAD + "DECL/INTGR,PROBE,I\nPROBE=ASSIGN/1\nDO/I,1,3\nTEXT/OPER,'a line'\nENDDO\nPROBE=ASSIGN/2\nGOTO/0,0,190\nPROBE=ASSIGN/3\nGOTO/0,0,180\nENDFIL\n",
    "selects.dmi": HEAD + "SNSLCT/S(T1)\nGOTO/0,0,180\nSNSLCT/S(T2)\nGOTO/0,0,190\nSNSLCT/S(H30)\nGOTO/0,0,200\nENDFIL\n",
    # keys that nothing uses, a name, and faults
    "notes.toml": 'made = "by hand"\n' + BOUNDS + '[[block]]\nname = "vise"\nlow = [10000, 10000, 0]\nhigh = [30000, 30000, 20000]\ncolour = "red"\n',
    "low.toml": BOUNDS + "[[block]]\nlow = [10000, 10000, 0]\nhigh = [30000, 9000, 20000]\n",
    "torn.toml": BOUNDS + "[[block]\n",
    # lines without effect; a loop of moves, one of lines; statements that are refused
    "notices.dmi": HEAD + "MODE/PROG,MAN\nFEDRAT/POSVEL,MPM,4\nGOTO/20,20,50\nFINPOS/ON\nENDFIL\n",
    "moves.dmi": HEAD + "DECL/INTGR,I\nDO/I,1,200\nGOTO/I,20,50\nENDDO\nENDFIL\n",
    "forty.dmi": HEAD + "DECL/INTGR,I\nDO/I,1,40\nTEXT/OPER,'a line of it'\nENDDO\nENDFIL\n",
    # features that are measured farther than the approach, along another direction, again and never; a loop without a round
    "meant.dmi": HEAD + "DECL/INTGR,I\nF(A)=FEAT/POINT,CART,12,20,20,0,0,1\nF(B)=FEAT/POINT,CART,20,20,20,1,0,0\nF(C)=FEAT/POINT,CART,20,20,20,0,0,1\nDO/I,2,1,1\nENDDO\n"
    "MEAS/POINT,F(A),1\nPTMEAS/CART,12,20,20\nENDMES\nMEAS/POINT,F(A),1\nPTMEAS/CART,28,20,20\nENDMES\nMEAS/POINT,F(B),1\nPTMEAS/CART,20,20,20,0,0,1\nENDMES\nENDFIL\n",
    "called.dmi": HEAD + "M(A)=MACRO/X\nDECL/LOCAL,REAL,R\nR=ASSIGN/X+1\nGOTO/R,20,50\nTEXT/OPER,'called'\nENDMAC\nCALL/M(A),20\nCALL/M(A),30\nENDFIL\n",
    "sunk.dmi": HEAD + "DECL/INTGR,I\nM(A)=MACRO/X\nGOTO/X,20,5\nENDMAC\nDO/I,1,3\nCALL/M(A),20\nENDDO\nENDFIL\n",
    "faults.dmi": HEAD + "GOTO/20,20\nGOTO/NOWHERE,0,50\nTEXT/OPER,'open\nGOTO/1.23456,0,50\nMOVE/1\nENDFIL\n",
    "late.dmi": HEAD + "DECL/INTGR,I\nI=ASSIGN/J\nENDFIL\n",
    # faults of names, kinds and blocks
    "names.dmi": HEAD + "DECL/INTGR,I\nF(CIRC1)=FEAT/POINT,CART,0,0,0,0,0,1\nMEAS/POINT,F(CIRK1),1\nPTMEAS/CART,0,0,0\nENDMES\nI=ASSIGN/1.5\nDO/I,1,2\nENDFIL\n",
    # what a producer's system writes: digits to be rounded, exponents, long names, inches, a frame that only the command line gives
    "fine.dmi": "DMISMN/'FINE',05.2\nUNITS/MM,ANGDEC\nSNSET/APPRCH,2.00049\nGOTO/10.12345,20.00049,30.0\nGOTO/1.5E+1,2.0E+1,30.5E0\n"
    "F(A_VERY_LONG_NAME_OF_A_POINT)=FEAT/POINT,CART,10.00001,20.00002,20.0,0,0,1\nMEAS/POINT,F(A_VERY_LONG_NAME_OF_A_POINT),1\n"
    "PTMEAS/CART,10.00001,20.00002,20.0,0,0,1\nENDMES\nOUTPUT/FA(A_VERY_LONG_NAME_OF_A_POINT)\nENDFIL\n",
    "inch.dmi": "DMISMN/'INCH',05.2\nUNITS/INCH,ANGDEC\nSNSET/APPRCH,0.1\nGOTO/0.5,0.25,1.5\nGOTO/1.00003,0.5,1.5\nGOHOME\nENDFIL\n",
    # datums of points, a CASE with several values, a number finer than a thousandth, a CALL that doesn't fit
    "points.dmi": HEAD + "MODE/PROG,MAN\nSNSET/APPRCH,5\nSNSET/RETRCT,5\nSNSET/SEARCH,5\nDECL/INTGR,I\nDECL/REAL,R\n"
    "M(K)=MACRO/X\nGOTO/X,20,60\nENDMAC\nF(P)=FEAT/POINT,CART,20,20,19,0,0,1\nMEAS/POINT,F(P),1\nPTMEAS/CART,20,20,19,0,0,1\nENDMES\n"
    "DATDEF/FA(P),DAT(A)\nD(T)=DATSET/DAT(A),ZORIG\nI=ASSIGN/2\nR=ASSIGN/1000*0.0254\nSELECT/I\nCASE/1,2\nGOTO/R,20,40\nENDCAS\nDFTCAS\nENDCAS\n"
    "ENDSEL\nCALL/M(K),'A'\nENDFIL\n",
    "datums.dmi": "DMISMN/'DATUMS',05.2\nUNITS/MM,ANGDEC\nD(PART)=DATSET/DAT(A),ZDIR,ZORIG,DAT(B),XDIR\nF(C1)=FEAT/CIRCLE,INNER,CART,20,20,20,0,0,1,10\n"
    "GOTO/20,20,50\nMEAS/CIRCLE,F(C1),3\nPTMEAS/CART,25,20,20,-1,0,0\nPTMEAS/CART,20,25,20,0,-1,0\nPTMEAS/CART,15,20,20,1,0,0\nENDMES\nGOHOME\nENDFIL\n",
    # inches, a question, and a frame by datums
    "waits.dmi": "DMISMN/'WAITS',05.2\nUNITS/MM,ANGDEC\nMODE/PROG,MAN\nWAIT/5\nS(1)=SNSDEF/PROBE,FIXED,CART,0,0,100,0,0,-1,8\nSNSLCT/S(1)\nROTAB/RT(A),ABSL,CW,30\nROTAB/RT(A),ABSL,CW,0\nGOTO/10,10,60\nFLY/2\nENDFIL\n",
    "asked.dmi": "DMISMN/'ASKED',05.2\nUNITS/INCH,ANGDEC\nDECL/INTGR,V\nTEXT/QUERY,(V),5,N,L,'HOW MANY'\nD(A)=DATSET/DAT(P),ZDIR\nGOTO/1,1,2.5\n"
    "IF/(V.EQ.10)\nGOTO/1,2,2.5\nENDIF\nENDFIL\n",
    # a frame that isn't known, and one of the machine, under long names; a way that begins elsewhere, and meets a block
    "lost.dmi": HEAD + "MODE/PROG,MAN\nD(A_VERY_LONG_NAME_OF_A_FRAME)=DATSET/DAT(P),XDIR\nGOTO/20,20,60\nD(ANOTHER_LONG_NAME_OF_IT)=DATSET/MCS\nGOTO/20,20,5\nENDFIL\n",
    "plain.dmi": "DMISMN/'PLAIN',05.2\nUNITS/MM,ANGDEC\nGOTO/20,20,50\nGOHOME\nENDFIL\n",
    # points that are measured on the models of the rows; a part file to which no block can be added; a model that ends too soon
    "points.csv": "mx,my,mz,mi,mj,mk\n120.000,115.000,10.000,1,0,0\n110.000,110.000,12.000,0,0,1\n",
    # a clamp that stays where the workpiece lies off its place
    "clamped.toml": BOUNDS + "[[block]]\nlow = [10000, 10000, 0]\nhigh = [30000, 30000, 20000]\n[[block]]\nlow = [-60000, 10000, 0]\nhigh = [-40000, 30000, 20000]\nfixture = true\n",
    "inline.toml": BOUNDS + "block = [{low = [10000, 10000, 0], high = [30000, 30000, 20000]}]\n",
    # what hangs on a head: a star, and a part that has too many boxes
    "star.toml": 'variable = "TOOL"\nstep = 1000\n[[part]]\nname = "arm"\nfrom = [-30000, 0, -50000]\nto = [30000, 0, -50000]\ndiameter = 1500\n'
    + "".join(f'[[tip]]\nname = "{it}"\nat = [{at}, 0, -50000]\ndiameter = 3000\n[[probe]]\nname = "{it}+0.0"\ntip = "{it}"\na = 0\nb = 0\n' for it, at in (("L", -32000), ("R", 32000))),
    "many.toml": 'step = 100\n[[part]]\nname = "shaft"\nfrom = [0, 0, 0]\nto = [0, 0, -50000]\ndiameter = 1500\n'
    '[[tip]]\nname = "T"\nat = [0, 0, -50000]\ndiameter = 3000\n[[probe]]\nname = "A45"\ntip = "T"\na = 45000\nb = 0\n',
    "torn.stl": "solid part\nfacet normal 0 0 1\nouter loop\nvertex 0 0 0\nvertex 20 0\n",
}

# Images and listings of programs, which the program makes itself: what is asked for, and the name of what it writes.
MADE = (
    ("build grid.dmi ../image", "grid.vcmi"),
    ("build stations.dmi ../image", "stations.vcmi"),
    ("list grid.dmi", "grid.lst"),
    ("list stations.dmi", "stations.lst"),
)

LINES = "break 1\nrun\nwhere\nstep 3\nwatch i\nrun\nback 2\nback 2\nshow i\nout\nlist\nrun\nrun\nreverse\nreverse\nout 2\nrun\nwhere\nquit\n"
LONG = "step 40\nback 3\nback 3\nstep 9\nout 2\nback 17\nshow i\nline 5\nbreak 1\nrun\nrun 20\nreverse\nclear 1\nunwatch i\nwatch i\nreverse\nrun\nstep 200\nwhere\nback 60\nrun\nrun\nout\nwhere\n"
OVERS = "known\nover\nover 2\nknown\nrun\nknown\nreverse\nover 3\nover 200\nquit\n"
TALKED = "b 5\nr\npos\n\ns 2\ns 2\nwa i\nr\np i\nw\nu 2\nl\nrev\nbs\ncl 5\nrun\no 2\nhelp\nnonsense\nwhere\nwhy\nq\n"
PROBED = "run 2\nwhere\nstep 3\nback 2\nbreak 2\nreverse\nrun\nrun\nclear 2\nrun\nreverse\nout\nstep\nwhatever\nback 9\nquit\n"
# Each number of steps back from 100, and forth again.
BACKS = "step 100\n" + "".join(f"back {it}\nshow i\nstep {it}\n" for it in range(1, 101))
FEATURES = "run 3\nfeat p1\nrun\nback\nfeat p1\nstep\nwhere\n"

# More growths than any case has: from the first one on that is refused, memory is at its end.
FOR_GOOD = 1_000_000

PROGRAMS = ("above", "touch", "grid", "lines", "stations")
TALKS = (
    "Emacs grid", "Emacs collision", "Emacs moved-breakpoint", "Emacs select-and-tip", "Emacs step-limit", "Emacs without-debugging", "Emacs image",
    "Emacs refused launches", "VS Code grid", "breakpoints that can't be", "watches that can't be", "no such rows", "a notice", "at a stop", "by lines", "whole, refused",
)
# Words of the table of `vcm explain`, a message, a word of the standard, and what nothing is known of.
EXPLAINED = (["E14"], ["E14", "E01"], ["stop", "COLLISION", "MOVE", "block", "1", "permille", "888", "at", "0", "line", "3"], ["E14", "Z01"], ["TOL"], [])


@dataclasses.dataclass(frozen=True)
class Case:
    """A command line: its words, what it reads from standard input, the status that it ends with where no growth is refused, and the kind of its answer.

    The kind tells what may stand on standard output where memory runs out. With none it is nothing; with `lines` the first lines, with `page` and `front` any front; with
    `behind` nothing, or all, since something is done behind it. `several` is told of several programs, each by itself; `session` is one of the debugger, `adapter` one of an editor.
    """

    words: tuple
    given: bytes = b""
    status: int = 0
    kind: str = ""
    # how many growths are refused in a row
    in_a_row: int = 1
    # whether its devices count as terminals
    at_terminal: bool = False

    def __str__(self):
        line = "vcm" + "".join(f" {it}" for it in self.words) + (" < job" if not self.words else "") + (" at a terminal" if self.at_terminal else "")
        return line + {1: "", FOR_GOOD: ", and all behind it"}.get(self.in_a_row, f", {self.in_a_row} in a row")


def case(line, given="", status=0, kind="", in_a_row=1):
    """The case of a line, whose words stand apart by one space."""
    given = given if isinstance(given, bytes) else given.encode()
    return Case(tuple(line.split(" ")) if line else (), given, status, kind, in_a_row)


def read(name):
    """The bytes of an example."""
    with open(f"{TOP}/examples/{name}", "rb") as it:
        return it.read()


def read_row(name):
    """The bytes of a file of the rows."""
    with open(f"{rows.DATA}/{name}", "rb") as it:
        return it.read()


def runs():
    """What is shown of runs."""
    for name in PROGRAMS:
        beside = f"{name}.dmi part-a.toml"
        yield case(f"run {beside}")
        yield case(f"trace {beside}", kind="lines")
        yield case(f"points {beside}", kind="lines")
        yield case(f"clearance {beside} stylus.toml", kind="lines", status=3 if name in ("touch", "grid") else 0)
        yield case(f"margin {beside}")
        yield case(f"why {beside}")
        yield case(f"contacts {beside}", kind="lines")
        yield case(f"picture {beside}")
        yield case("", read(f"{name}.job"))
    for command in ("run", "why", "contacts", "trace", "margin", "points", "picture", "view"):
        kind = {"contacts": "lines", "trace": "lines", "points": "lines", "view": "page"}.get(command, "")
        yield case(f"{command} into.dmi part-a.toml", status=3, kind=kind)
        yield case(f"{command} grid.vcmi twenty.toml --steps 20 --quiet", status=4, kind=kind)
        yield case(f"{command} notices.dmi notes.toml", kind=kind)
    yield case("run forty.dmi part-a.toml")
    yield case("run - part-a.toml", read("touch.dmi"))
    yield case("run touch.dmi -", read("part-a.toml"))
    yield case("run touch.dmi - --show I", read("part-a.toml"), status=2)
    yield case("clearance touch.dmi part-a.toml -", read("stylus.toml"), status=3, kind="lines")
    yield case("clearance chosen.dmi notes.toml heads.toml", kind="lines")
    yield case("clearance grid.dmi part-a.toml heads.toml", status=1)
    yield case("clearance selects.dmi notes.toml heads.toml --whole", kind="lines", status=3)
    for command in ("run", "trace", "points", "why", "contacts", "picture"):
        yield case(f"{command} chosen.dmi notes.toml --probe heads.toml", kind="lines")
    yield case("run chosen.dmi notes.toml --probe heads.toml --show PROBE --quiet", kind="lines")
    yield case("view chosen.dmi notes.toml --probe heads.toml", kind="page")
    for program in ("touch", "called", "sunk"):
        yield case(f"why {program}.dmi notes.toml --probe stylus.toml", status={"called": 0}.get(program, 3))
    for command in ("why", "contacts", "margin"):
        yield case(f"{command} sunk.dmi notes.toml", status=3, kind="lines" if command == "contacts" else "")
    yield case("clearance sunk.dmi notes.toml stylus.toml", status=3, kind="lines")
    yield case("clearance called.dmi notes.toml stylus.toml", kind="lines")
    yield case("margin called.dmi notes.toml")
    yield case("why lost.dmi part-a.toml --whole --probe stylus.toml", status=3)
    yield case("run grid.dmi part-a.toml --probe stylus.toml", status=2)
    yield case("contacts selects.dmi notes.toml --probe heads.toml --whole", kind="lines", status=3)
    yield case("run - -", status=2)
    yield case("run notices.dmi notes.toml --talk")
    yield case("run late.dmi part-a.toml --talk", status=1)
    yield case("run above.dmi low.toml --talk", status=1)
    yield case("run stations.dmi part-a.toml --show STATION")
    yield case("run bracket.dmi bracket.toml --show I,TOP,GOOD --steps 100", status=3)
    yield case("run grid.vcmi part-a.toml --show I --quiet")
    yield case("clearance overhang.dmi overhang.toml stylus.toml --steps 1000 --quiet", status=3, kind="lines")
    yield case("picture bracket.dmi bracket.toml --close", status=3)
    yield case("picture touch.dmi part-a.toml --sheet")
    yield case("picture bracket.dmi bracket.toml --sheet --close", status=3)
    yield case("picture bracket.dmi bracket.toml --paper a4", status=3)
    yield case("picture plate.dmi plate.toml --lines 10-20")
    yield case("view touch.dmi part-a.toml", kind="page")
    yield case("view overhang.dmi overhang.toml --probe stylus.toml", kind="page")
    yield case("view grid.dmi part-a.toml", kind="page")
    yield case("why bracket.dmi bracket.toml", status=3)
    yield case("contacts bracket.dmi bracket.toml", status=3, kind="lines")
    yield case("margin plate.dmi plate.toml")
    yield case("points meant.dmi part-a.toml", kind="lines")
    yield case("points meant.dmi part-a.toml --quiet", kind="lines")
    yield case("points turned.dmi low.toml", status=1)
    yield case("points turned.dmi part-a.toml --machine", kind="lines")
    yield case("run square.dmi part-a.toml --whole")
    yield case("trace rounds.dmi part-a.toml --whole", kind="lines")
    yield case("points touch.dmi part-a.toml --whole", kind="lines", status=7)
    yield case("why bracket.dmi bracket.toml --whole", status=3)
    yield case("run touch.dmi part-a.toml --whole --apprch 2 --retrct 2 --search 5 --auto")
    yield case("run asked.dmi part-a.toml --whole --frame A=10,20,0,Z90 --given V=10")
    yield case("run touch.dmi part-a.toml --whole --apprch 2 --retrct 2 --search 5 --approach", status=7)
    yield case("run stations.dmi part-a.toml --whole --show STATION")
    yield case("check touch.dmi --whole --apprch 2 --retrct 2 --search 5")
    yield case("run waits.dmi part-a.toml --whole --harmless WAIT --table 0", status=7)
    yield case("check waits.dmi --whole --harmless WAIT --table 0")
    yield case("why waits.dmi part-a.toml --whole --harmless WAIT --table 0", status=7)
    yield case("trace waits.dmi part-a.toml --whole --harmless WAIT --table 0", kind="lines", status=7)
    yield case("points waits.dmi part-a.toml --whole --harmless WAIT --table 0", kind="lines", status=7)
    yield case("check asked.dmi --whole --frame A=10,20,0,Z90 --given V=10 --auto --approach")
    given = "--frame A=10,20,0,Z90 --given V=10 --apprch 2 --retrct 2 --search 5 --auto --approach"
    yield case(f"why asked.dmi part-a.toml --whole {given}")
    yield case(f"trace asked.dmi part-a.toml --whole {given}", kind="lines")
    yield case(f"points asked.dmi part-a.toml --whole {given}", kind="lines")
    yield case("why lost.dmi part-a.toml --whole", status=3)
    yield case("points lost.dmi part-a.toml --whole", kind="lines", status=3)
    yield case("check touch.dmi square.dmi --whole", kind="several")
    yield case("contacts lost.dmi part-a.toml --whole", kind="lines", status=3)
    table = "--harmless WAIT --table 0"
    for command in ("clearance", "contacts", "margin", "picture", "view"):
        kind = {"clearance": "lines", "contacts": "lines", "view": "page"}.get(command, "")
        parts = "part-a.toml stylus.toml" if command == "clearance" else "part-a.toml"
        yield case(f"{command} asked.dmi {parts} --whole {given}", kind=kind)
        yield case(f"{command} waits.dmi {parts} --whole {table}", kind=kind, status=7)
    for option in ("", " --close", " --sheet", " --lines 4-7"):
        yield case(f"picture lost.dmi part-a.toml --whole{option}", status=3)
    yield case("view lost.dmi part-a.toml --whole --probe stylus.toml", kind="page", status=3)
    yield case("view square.dmi part-a.toml --whole", kind="page")
    yield case("run points.dmi part-a.toml --whole", status=7)
    yield case("trace turned.dmi torn.toml", status=1)
    for command in ("run", "why", "contacts", "trace", "margin", "points", "picture", "view"):
        kind = {"contacts": "lines", "trace": "lines", "points": "lines", "view": "page"}.get(command, "")
        yield case(f"{command} grid.dmi clamped.toml --place 0.5,0,0.25 --strict", status=0, kind=kind)
    yield case("clearance grid.dmi clamped.toml stylus.toml --place=-0.5,0,0 --strict", status=3, kind="lines")
    yield case("part clamped.toml --place 1,2,3 --strict")
    yield case("run touch.dmi notes.toml --strict", status=1)
    yield case("run touch.dmi part-a.toml --place 1,2", status=2)
    yield case("debug touch.dmi clamped.toml --place 0,0,0.5 --strict", "run\nquit\n", kind="session")
    yield case("place grid.dmi clamped.toml --by 0.5 --steps 1000 --quiet --strict")
    yield case("place touch.dmi clamped.toml --by 2.5 --from-line 5", status=3)
    yield case("judge touch.dmi late.dmi into.dmi --part part-a.toml", status=1, kind="judged")
    yield case("judge overhang.dmi plate.dmi touch.dmi --steps 1000 --strict --place 0,0,0.25", status=1, kind="judged")
    yield case("judge overhang.dmi --probe stylus.toml --csv", status=3, kind="judged")
    yield case(f"judge asked.dmi --part part-a.toml --whole {given} --junit ../image", kind="judged")
    yield case("judge touch.dmi --part part-a.toml --report ../image", kind="judged")
    yield case("judge waits.dmi --part part-a.toml --whole --harmless WAIT --table 0", status=7, kind="judged")


def texts():
    """Programs, parts and listings that are judged, built and printed."""
    for name in PROGRAMS:
        yield case(f"check {name}.dmi")
        yield case(f"check --all {name}.dmi")
        yield case(f"build {name}.dmi ../image")
        yield case(f"list {name}.dmi")
    yield case("check faults.dmi --talk", status=1)
    yield case("check --all faults.dmi", status=1)
    yield case("check --all late.dmi", status=1)
    yield case("check --all names.dmi", status=1)
    yield case("check names.dmi --talk", status=1)
    yield case("check --quiet notices.dmi touch.dmi late.dmi", status=1, kind="several")
    yield case("check --talk notices.dmi called.dmi", kind="several")
    yield case("check --all faults.dmi notices.dmi", status=1, kind="several")
    yield case("check -", read("touch.dmi"))
    yield case("list -", read("touch.dmi"))
    yield case("build - ../image", read("touch.dmi"))
    yield case("build touch.dmi touch.dmi", status=2)
    yield case("asm - ../image", "VCM-LISTING 1\n0 3 GOTO [I20 SCALE] [I20 SCALE] [I50 SCALE]\n1 4 ENDFIL\n")
    yield case("build notices.dmi ../image --talk")
    yield case("build called.dmi ../image --quiet")
    yield case("list notices.dmi --talk --quiet")
    yield case("list grid.vcmi")
    yield case("list called.dmi")
    yield case("asm grid.lst ../image")
    yield case("asm stations.lst ../image --talk")
    yield case("asm touch.dmi ../image", status=1)
    yield case("part part-a.toml")
    yield case("part notes.toml")
    yield case("part notes.toml --quiet")
    yield case("part twenty.toml")
    yield case("part low.toml", status=1)
    yield case("part torn.toml", status=1)


def produced():
    """Producers' texts."""
    for text, options, status in (
        ("camio.dmi", "--tip 1000", 1),
        ("camio.dmi", "--part camio.toml --frame ROUGH=150,100,60", 1),
        ("fine.dmi", "--tip 1000", 0),
        ("fine.dmi", "--exact", 1),
        ("inch.dmi", "", 0),
        ("datums.dmi", "--frame PART=10,10,20 --tip 500", 0),
        ("plain.dmi", "", 0),
    ):
        more = f" {options}" if options else ""
        yield case(f"survey {text}{more}", status=0 if text == "plain.dmi" else 1, kind="behind")
        yield case(f"adapt {text}{more}", status=status, kind="behind")
    yield case("survey camio.dmi --lines --tip 1000", status=1, kind="behind")
    yield case("survey fine.dmi --lines", status=1, kind="behind")
    yield case("survey - --tip 1000", read("camio.dmi"), status=1, kind="behind")
    yield case("survey camio.dmi --part notes.toml", status=1, kind="behind")
    yield case("adapt camio.dmi --part torn.toml", status=1)
    yield case("adapt datums.dmi --touch --frame=PART=10,10,20", kind="behind")


def models():
    """Part files whose blocks cover models."""
    yield case("blocks cube.stl")
    yield case("blocks flat.stl --talk")
    yield case("blocks inch.stl --unit inch --quiet")
    yield case("blocks wedge.stl --within 8 --turn z90,x-90 --at=-10,20,30.5 --most 40 --name left")
    yield case("blocks wedge.stl --into notes.toml --within 4 --at 100,100,0 --near points.csv")
    yield case("blocks - --within 8", read_row("wedge.stl"))
    yield case("blocks cube.stl --into - --at 100,100,0", read("part-a.toml"))
    yield case("blocks torn.stl", status=1)
    yield case("blocks bad_short.stl --into twenty.toml", status=1)
    yield case("blocks wedge.stl --within 0.5 --most 4", status=1)
    yield case("blocks cube.stl --into inline.toml --at 100,100,0", status=1)
    yield case("blocks cube.stl --into low.toml", status=1)
    yield case("blocks cube.stl --near low.toml", status=1)
    yield case("blocks cube.stl --at 1,2", status=2)


def probes():
    """Probe files of what hangs on a head."""
    yield case("probe head.toml")
    yield case("probe star.toml")
    yield case("probe -", read("head.toml"))
    yield case("probe torn.toml", status=1)
    yield case("probe many.toml", status=1)


def jobs_at_a_terminal():
    """Jobs, of which more is told at a terminal, and with `--talk`."""
    for part, program, status in (
        (read("part-a.toml"), read("touch.dmi"), 0),
        (FILES["notes.toml"].encode(), FILES["notices.dmi"].encode(), 0),
        (read("part-a.toml"), read("into.dmi"), 3),
        (FILES["low.toml"].encode(), read("touch.dmi"), 1),
        (FILES["torn.toml"].encode(), read("touch.dmi"), 1),
        (read("part-a.toml"), FILES["late.dmi"].encode(), 1),
    ):
        yield Case((), part + b"%%\n" + program, status, "behind", at_terminal=True)
        yield Case(("--talk",), part + b"%%\n" + program, status, "behind")
    # no job at all
    yield Case((), read("touch.dmi"), 1, "behind", at_terminal=True)
    yield Case((), read("part-a.toml"), 1, "behind", at_terminal=True)


def told():
    """What is told of vcm itself."""
    for words in EXPLAINED:
        yield Case(("explain", *words))
    yield case("explain nothing of this", status=2)
    yield case("--version")
    yield case("--help")
    yield case("help run")
    yield case("run above.dmi", status=2)
    yield case("no-such-command above.dmi", status=2)


def sessions():
    """Sessions of the debugger and of editors. Where a growth is refused, the debugger lets copies go and tries it once more, so several in a row are refused too."""
    for in_a_row in (1, 2, FOR_GOOD):
        for name in PROGRAMS:
            yield case(f"debug {name}.dmi part-a.toml", LINES, kind="session", in_a_row=in_a_row)
        yield case("debug grid.vcmi twenty.toml --quiet", FEATURES, kind="session", in_a_row=in_a_row)
        yield case("debug forty.dmi part-a.toml", LONG, kind="session", in_a_row=in_a_row)
        yield case("debug moves.dmi part-a.toml", LONG, kind="session", in_a_row=in_a_row)
        yield case("debug lines.dmi part-a.toml --talk", TALKED, kind="session", in_a_row=in_a_row)
        yield case("debug notices.dmi notes.toml --talk", "r\nq\n", kind="session", in_a_row=in_a_row)
        yield case("debug asked.dmi part-a.toml --whole --frame A=10,20,0,Z90 --given V=10 --apprch 2 --retrct 2 --search 5 --auto --approach", OVERS, kind="session", in_a_row=in_a_row)
        yield case("debug waits.dmi part-a.toml --whole --harmless WAIT --table 0", OVERS, kind="session", in_a_row=in_a_row)
        yield case("debug probed.dmi notes.toml --probe heads.toml", PROBED, kind="session", in_a_row=in_a_row)
        for name, lines in rows.sections():
            if name in TALKS:
                yield Case(("dap",), rows.bytes_sent(lines), kind="adapter", in_a_row=in_a_row)
    for in_a_row in (1, 2, 16):
        yield case("debug moves.dmi part-a.toml", BACKS, kind="session", in_a_row=in_a_row)


def at_its_end(found):
    """For each command one of these cases, and each of `touch.dmi`, with no memory from one growth on."""
    names = set()
    for it in found:
        if it.in_a_row == 1 and it.kind not in ("session", "adapter") and ("touch.dmi" in it.words or it.words[:1] not in names):
            yield dataclasses.replace(it, in_a_row=FOR_GOOD)
        names.add(it.words[:1])


def cases(table):
    """All cases; the help of each command of the table among them."""
    found = [*runs(), *texts(), *produced(), *models(), *probes(), *jobs_at_a_terminal(), *told(), *sessions()]
    return [*found, *at_its_end(found), *(case(f"{name} --help") for name in table)]


def lay_out(folder):
    """Puts the files into a folder."""
    shutil.copytree(rows.DATA, folder)
    shutil.copytree(f"{TOP}/examples", folder, dirs_exist_ok=True)
    for name, text in FILES.items():
        with open(f"{folder}/{name}", "w", encoding="ascii") as it:
            it.write(text)


def commands_in(text):
    """The commands that the program's help has."""
    behind = text.partition("\nCommands:\n")[2].partition("\n\n")[0]
    return [name for name in re.findall(r"(?m)^  (\S+)", behind) if name != "help"]


def options_in(text):
    """The options that a command's help has."""
    behind = text.partition("\nOptions:\n")[2].partition("\n\n")[0]
    return re.findall(r"(?m)^ +(?:-\w, )?--([\w-]+)", behind)


def lacking(table, found):
    """The commands and options of a table that no case has, and the talks that aren't there."""
    yield from (f"the talk {it!r}" for it in TALKS if it not in dict(rows.sections()))
    for name, options in table.items():
        words = [it.words[1:] for it in found if it.words[:1] == (name,) and it.status != 2]
        if all(it == ("--help",) for it in words):
            yield f"vcm {name}"
        for option in options:
            if not any(word == f"--{option}" or word.startswith(f"--{option}=") for it in words for word in it):
                yield f"vcm {name} --{option}"
