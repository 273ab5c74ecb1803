"""Variables of a text and of its macros, with the arguments of calls as the reading hands them over."""
import expressions
from expressions import BadExpression

START = {"INTGR": 0, "LONG": 0, "REAL": 0.0, "DOUBLE": 0.0, "BOOL": False, "CHAR": ""}


class Variables:
    """The variables that the machine has, in scopes: the text's, and one for each call that is open."""

    def __init__(self, reading, course):
        self.reading, self.course = reading, course
        self.scopes = [{}]
        self.kinds = [{}]
        self.shared = []

    def declare(self, line, fields):
        """DECL: where the standard gives no value at the start the course does."""
        words = [it.upper() for it in fields]
        where = words.pop(0) if words[0] in ("GLOBAL", "COMMON", "LOCAL") else "LOCAL"
        kind = words.pop(0)
        if kind == "CHAR" and words[0].isdigit():
            words.pop(0)
        depth = 0 if where in ("GLOBAL", "COMMON") else len(self.scopes) - 1
        for name in words:
            unset = START.get(kind, 0)
            if where == "COMMON" and kind not in ("BOOL", "CHAR"):
                unset = type(unset)(self.course.answer(line))
            self.kinds[depth][name] = kind
            self.shared += [name] if depth == 0 and where != "LOCAL" else []
            self.scopes[depth].setdefault(name, ("value", unset))

    def depth_of(self, name, depth):
        """The scope that a name is looked up in."""
        return depth if name in self.scopes[depth] else 0

    def look(self, name, depth=None):
        """The value of a name."""
        depth = self.depth_of(name, len(self.scopes) - 1 if depth is None else depth)
        if name not in self.scopes[depth]:
            raise BadExpression(f"no variable {name}")
        how, what, *where = self.scopes[depth][name]
        if how == "value":
            return what
        if how == "alias":
            return self.look(what, where[0])
        return expressions.value(what, lambda it: self.look(it, where[0]), self.reading.whole_quotient)

    def assign(self, name, value, depth=None):
        """Gives a variable a value, of its kind."""
        depth = self.depth_of(name, len(self.scopes) - 1 if depth is None else depth)
        how, what, *where = self.scopes[depth].get(name, ("value", 0))
        if how == "alias":
            return self.assign(what, value, where[0])
        if how == "tree" and what[0] == "name":
            return self.assign(what[1], value, where[0])
        kind = self.kinds[depth].get(name)
        if kind in ("INTGR", "LONG") and not isinstance(value, str):
            value = round(value)
        elif kind in ("REAL", "DOUBLE") and not isinstance(value, str):
            value = float(value)
        self.scopes[depth][name] = ("value", value)

    def value(self, text):
        """The value of an expression as it is written."""
        return expressions.value(expressions.read(text), self.look, self.reading.whole_quotient)

    def call(self, parameters, arguments):
        """Opens the scope of a call."""
        depth, scope = len(self.scopes) - 1, {}
        for parameter, argument in zip(parameters, arguments):
            if parameter.startswith("'"):
                scope[parameter.upper()] = self.named(argument.strip("'")).upper()
                continue
            tree = expressions.read(argument)
            if self.reading.arguments == "name":
                scope[parameter.upper()] = ("tree", tree, depth)
            elif self.reading.arguments == "reference" and tree[0] == "name":
                scope[parameter.upper()] = ("alias", tree[1], depth)
            else:
                scope[parameter.upper()] = ("value", self.value(argument))
        self.scopes.append(scope)
        self.kinds.append({})

    def named(self, name):
        """The name that a name stands for: that of a quoted parameter, or itself."""
        return self.scopes[-1].get(f"'{name.upper()}'", name)

    def closed(self):
        """Closes the scope of the call that was opened last."""
        self.scopes.pop()
        self.kinds.pop()
