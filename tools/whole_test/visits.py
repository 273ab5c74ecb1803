"""Numbers the visits of lines, so that those of a machine and those of a run are told by one name.

A visit of a line is named by the line, by the visit of the block around it (the line of its IF, DO or SELECT; in a macro the line in front of the call), and by how often
the line has been come to since that visit. So a visit keeps its name where a run leaves out a block that the machine goes through.
"""


class Visits:
    """What has been visited so far."""

    def __init__(self, program):
        self.header, self.calls = program.header, program.calls
        self.macro_of_line = {program.statements[at].line: name for name, at in program.macros.items()}
        self.now, self.count, self.called, self.first, self.latest = {}, {}, {}, {}, None

    def around(self, line):
        """The visit of the block around a line."""
        header = self.header.get(line)
        if header in self.macro_of_line:
            return self.called.get(self.macro_of_line[header])
        return self.now.get(header)

    def begun(self, line):
        """The name of a new visit of a line."""
        around = self.around(line)
        number = self.count[line, around] = self.count.get((line, around), 0) + 1
        self.now[line] = (line, number, around)
        if line in self.calls:
            self.called[self.calls[line]] = self.now[line]
        return self.now[line]

    def at(self, line, statement):
        """The name of the visit that a step belongs to, by the number of its statement.

        A new one begins where the run is back at the first statement of the line, or the block around is visited anew: what a line comes to is carried out from its first statement
        on, and may go on later, as a loop does at the line of its DO.
        """
        visit, latest = self.now.get(line), self.latest
        self.latest = line
        is_back = visit is not None and line != latest and statement <= self.first[line]
        if visit is None or is_back or visit[2] != self.around(line):
            visit = self.begun(line)
            self.first[line] = statement
        return visit


def spelled(visit):
    """A visit in words."""
    numbers, around = [str(visit[1])], visit[2]
    while around:
        numbers.append(f"{around[1]} of line {around[0]}")
        around = around[2]
    return f"line {visit[0]} visit " + " in ".join(numbers)
