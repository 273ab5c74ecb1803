"""Texts of DMIS as a machine reads them: statements, blocks, macros, labels."""
import re
from dataclasses import dataclass, field

NAMED = re.compile(r"([A-Za-z]+)\(([^()]*)\)$|([A-Za-z]\w*)$")
MAJOR = re.compile(r"([A-Za-z]\w*)\s*(?:/(.*))?$", re.S)
LABEL = re.compile(r"\(\s*(\w+)\s*\)$")
OPENERS = ("IF", "DO", "SELECT", "MACRO")


@dataclass
class Statement:
    """One statement: its line, what it names in front (`F`, `P1`), its word, and the fields behind."""

    line: int
    kind: str
    name: str
    word: str
    fields: list
    text: str


def uncommented(line):
    """A line without its comment."""
    out = quoted = ""
    for place, letter in enumerate(line):
        if letter == "'":
            quoted = "" if quoted else "'"
        if not quoted and line.startswith("$$", place):
            break
        out += letter
    return out.rstrip()


def split(text, mark=","):
    """The pieces of a text between marks that stand outside of parentheses and quotes."""
    pieces, depth, quoted = [""], 0, False
    for letter in text:
        quoted ^= letter == "'"
        depth += 0 if quoted else (letter == "(") - (letter == ")")
        if letter == mark and not depth and not quoted:
            pieces.append("")
        else:
            pieces[-1] += letter
    return [it.strip() for it in pieces]


def statement(line, text):
    """The statement that a joined line holds."""
    if LABEL.match(text):
        return Statement(line, "", LABEL.match(text)[1].upper(), "LABEL", [], text)
    front, body = "", text
    pieces = split(text, "=")
    if len(pieces) > 1 and NAMED.match(pieces[0]):
        front, body = pieces[0], text.split("=", 1)[1].strip()
    found = MAJOR.match(body)
    if not found:
        return Statement(line, "", "", "?", [], text)
    named = NAMED.match(front) if front else None
    kind, name = (named[1] or "variable", named[2] or named[3].upper()) if named else ("", "")
    return Statement(line, kind.upper(), name, found[1].upper(), split(found[2]) if found[2] is not None else [], text)


def statements(text):
    """The statements of a text, each with the line that it begins on."""
    found, held, since = [], "", 0
    for number, line in enumerate(text.split("\n"), 1):
        line = uncommented(line)
        since = since if held else number
        if line.endswith("$"):
            held += line[:-1]
            continue
        if (held + line).strip():
            found.append(statement(since, (held + line).strip()))
        held = ""
    return found


@dataclass
class Program:
    """A text with what belongs together in it, each by the number of a statement."""

    statements: list
    end: dict = field(default_factory=dict)
    start: dict = field(default_factory=dict)
    other: dict = field(default_factory=dict)
    cases: dict = field(default_factory=dict)
    macros: dict = field(default_factory=dict)
    labels: dict = field(default_factory=dict)
    header: dict = field(default_factory=dict)
    calls: dict = field(default_factory=dict)
    call_lines: dict = field(default_factory=dict)


def linked(text):
    """The program of a text."""
    program, open_blocks, native = Program(statements(text)), [], False
    for number, it in enumerate(program.statements):
        inner = next((i for i in reversed(open_blocks) if program.statements[i].word in OPENERS), None)
        macro = next((program.statements[i].name.upper() for i in open_blocks if program.statements[i].word == "MACRO"), "")
        program.header[it.line] = None if inner is None else program.statements[inner].line
        native = (native or it.word == "DMIS" and it.fields == ["OFF"]) and not (it.word == "DMIS" and it.fields == ["ON"])
        if native:
            continue
        link(program, open_blocks, number, it, macro)
    return program


def link(program, open_blocks, number, it, macro):
    """Enters one statement into what belongs together."""
    if it.word in OPENERS:
        open_blocks.append(number)
        if it.word == "MACRO":
            program.macros[it.name.upper()] = number
            program.header[it.line] = None
        program.cases[number] = []
    elif it.word == "ELSE":
        program.other[open_blocks[-1]], program.start[number] = number, open_blocks[-1]
    elif it.word in ("CASE", "DFTCAS"):
        program.cases[open_blocks[-1]].append(number)
    elif it.word == "ENDCAS":
        program.start[number] = open_blocks[-1]
    elif it.word in ("ENDIF", "ENDDO", "ENDSEL", "ENDMAC"):
        opened = open_blocks.pop()
        program.end[opened], program.start[number] = number, opened
    elif it.word == "LABEL":
        program.labels[macro, it.name] = number
    elif it.word == "CALL" and it.fields and it.fields[0].upper().startswith("M(") and number:
        before = program.statements[number - 1].line
        program.calls[before], program.call_lines[before] = it.fields[0][2:-1].upper(), it.line


ENDS = {
    "IF": "ENDIF", "DO": "ENDDO", "SELECT": "ENDSEL", "MACRO": "ENDMAC", "MEAS": "ENDMES", "GOTARG": "ENDGO", "CASE": "ENDCAS", "DFTCAS": "ENDCAS",
}


def is_whole(text):
    """Whether a text has its first and last statement, and all its blocks and labels are whole."""
    wanted, found = [], statements(text)
    labels = {it.name for it in found if it.word == "LABEL"}
    for it in found:
        if it.word in ENDS:
            wanted.append(ENDS[it.word])
        elif it.word in ENDS.values():
            if not wanted or wanted.pop() != it.word:
                return False
        elif it.word == "ELSE" and wanted[-1:] != ["ENDIF"] or it.word == "PTMEAS" and "ENDMES" not in wanted:
            return False
        elif it.word == "JUMPTO" and it.fields[0].strip("() ").upper() not in labels:
            return False
    switches = [it.fields for it in found if it.word == "DMIS"]
    return not wanted and found[0].word in ("DMISMN", "DMISMD") and found[-1].word == "ENDFIL" and switches == [["OFF"], ["ON"]] * (len(switches) // 2)
