"""Makes a text that fails smaller: lines are left out as long as it goes on failing in the same way."""


def without(lines, first, count):
    """The lines but for some of them. A line that is left out stays as an empty one, so that all lines keep their numbers."""
    return [*lines[:first], *([""] * count), *lines[first + count :]]


def smaller(text, fails):
    """A text with as few lines as could be found. `fails` says whether a text still fails."""
    lines, before = text.split("\n"), None
    while lines != before:
        before = lines
        lines = blocks_left_out(pieces_left_out(lines, fails), fails)
    return "\n".join(lines)


def pieces_left_out(lines, fails):
    """Pieces are left out from the end, the longest first."""
    size = len(lines) // 3
    while size:
        for first in range(len(lines) - size, 0, -size):
            if any(lines[first : first + size]):
                tried = without(lines, first, size)
                lines = tried if fails("\n".join(tried)) else lines
        size //= 2
    return lines


def blocks_left_out(lines, fails):
    """Blocks are left out as a whole, or else their first and last lines."""
    opened = []
    for number, line in enumerate(lines):
        word = line.strip().split("/")[0].split("=")[-1]
        if word in ("IF", "DO", "SELECT", "MACRO", "MEAS"):
            opened.append(number)
        elif word in ("ENDIF", "ENDDO", "ENDSEL", "ENDMAC", "ENDMES") and opened:
            first = opened.pop()
            for tried in (without(lines, first, number - first + 1), without(without(lines, first, 1), number, 1)):
                if fails("\n".join(tried)):
                    lines = tried
                    break
    return lines
