"""Expressions of DMIS: read into trees, and evaluated with doubles for what is REAL."""
import math
import re

TOKEN = re.compile(r"\s*(\.[A-Z]+\.|(?:\d+(?:\.(?![A-Z]+\.)\d*)?|\.\d+)(?:E[-+]?\d+)?|[A-Z]\w*|'[^']*'|\*\*|[-+*/(),])", re.I)
LEVELS = ((".OR.",), (".AND.",), (".NOT.",), (".EQ.", ".NE.", ".LT.", ".LE.", ".GT.", ".GE."), ("+", "-"), ("*", "/"), ("sign",), ("**",))
RELATIONS = {
    ".EQ.": lambda a, b: a == b, ".NE.": lambda a, b: a != b, ".LT.": lambda a, b: a < b,
    ".LE.": lambda a, b: a <= b, ".GT.": lambda a, b: a > b, ".GE.": lambda a, b: a >= b,
}
FUNCTIONS = {"ABS": abs, "SQRT": math.sqrt, "INT": int, "NINT": lambda it: math.floor(it + 0.5), "MIN": min, "MAX": max,
             "DTOR": math.radians, "RTOD": math.degrees, "SIN": math.sin, "COS": math.cos}


class BadExpression(Exception):
    """A text that is no expression, or one without a value."""


class Reader:
    """Reads one expression from its text."""

    def __init__(self, text):
        self.tokens, place = [], 0
        while text[place:].strip():
            found = TOKEN.match(text, place)
            if not found:
                raise BadExpression(text)
            self.tokens.append(found[1] if found[1].startswith("'") else found[1].upper())
            place = found.end()
        self.place = 0

    def next(self):
        """The next token, or nothing at the end."""
        return self.tokens[self.place] if self.place < len(self.tokens) else ""

    def taken(self):
        """The next token, which is passed."""
        self.place += 1
        if self.place > len(self.tokens):
            raise BadExpression("an end that came too early")
        return self.tokens[self.place - 1]

    def level(self, number):
        """An expression of a level of precedence, grouped from the left."""
        if number == len(LEVELS):
            return self.primary()
        words = LEVELS[number]
        if words == ("sign",):
            return (self.taken(), ("number", 0), self.level(number)) if self.next() in ("-", "+") else self.level(number + 1)
        if words == (".NOT.",):
            return (self.taken(), self.level(number)) if self.next() == ".NOT." else self.level(number + 1)
        tree = self.level(number + 1)
        while self.next() in words:
            tree = (self.taken(), tree, self.level(number + 1))
        return tree

    def primary(self):
        """A number, a name, a call of a function, or an expression in parentheses."""
        token = self.taken()
        if token == "(":
            tree = self.level(0)
            self.taken()
            return tree
        if token in (".TRUE.", ".FALSE."):
            return ("number", token == ".TRUE.")
        if token.startswith("'"):
            return ("number", token[1:-1])
        if token[0].isdigit() or token[0] == ".":
            return ("number", int(token) if token.isdigit() else float(token))
        if self.next() != "(":
            return ("name", token)
        self.taken()
        arguments = [self.level(0)]
        while self.taken() == ",":
            arguments.append(self.level(0))
        return ("call", token, arguments)


def read(text):
    """The tree of an expression."""
    reader = Reader(text)
    tree = reader.level(0)
    if reader.next():
        raise BadExpression(text)
    return tree


def quotient(a, b, whole):
    """A quotient; that of two whole numbers by the reading."""
    if b == 0:
        raise BadExpression("a quotient by 0")
    if isinstance(a, int) and isinstance(b, int) and whole == "truncated":
        return abs(a) // abs(b) * (1 if (a < 0) == (b < 0) else -1)
    return a / b


def value(tree, look, whole):
    """The value of a tree, with the values of names by `look`."""
    word = tree[0]
    if word == "number":
        return tree[1]
    if word == "name":
        return look(tree[1])
    if word == "call":
        if tree[1] not in FUNCTIONS:
            raise BadExpression(tree[1])
        return FUNCTIONS[tree[1]](*(value(it, look, whole) for it in tree[2]))
    if word == ".NOT.":
        return not value(tree[1], look, whole)
    a, b = value(tree[1], look, whole), value(tree[2], look, whole)
    if word in RELATIONS:
        return RELATIONS[word](a, b)
    if word == "/":
        return quotient(a, b, whole)
    return {".AND.": lambda: a and b, ".OR.": lambda: a or b, "+": lambda: a + b, "-": lambda: a - b, "*": lambda: a * b, "**": lambda: a**b}[word]()
