"""Whether an answer of the program is right that was refused a growth of memory.

It is right where it tells want of memory: the status is 5, standard output is empty, or has the front of what is written as the steps are taken, standard
error ends with one line, `no memory` or `no memory after N steps`, behind what was told before, and no byte of an image is written. It is the same where
it is that of the command as it is: the growth was one that may be left out. A session of the debugger may also reply `no memory ..` to a command: it then
goes on as one that has taken the steps that are told and no others; by hand, `no memory` alone, and it goes on as one that wasn't given that line. The debug
adapter may tell it in one message. Notices that stand in one line may be told one by one. Anything else is wrong.
"""
import dataclasses
import os
import re
import sys

sys.path.insert(0, os.path.join(os.path.dirname(os.path.dirname(os.path.abspath(__file__))), "dap"))
import rows

NO_MEMORY = re.compile(rb"no memory( after [0-9]+ steps)?\n")
HALTED = b"no memory "
LEFT_OUT = b"no memory\n"
SUMMARY = re.compile(rb"(?m)^(?:(.+): )?notices: .*\n")
GREETING = re.compile(rb"(?m)^help tells the commands; .*\n")
STANDS = re.compile(rb"step ([0-9]+) ")
# The second line of a refusal of a workpiece that lies off its place, which tells where that was.
AT_PLACE = re.compile(rb"at place [^\n]*\n\Z")


def is_told(wanted, told):
    """Whether standard error has want of memory as its last line, but for the place of the workpiece, behind some first lines of what is wanted."""
    front, _, last = AT_PLACE.sub(b"", told)[:-1].rpartition(b"\n")
    front += b"\n" if front else b""
    return bool(NO_MEMORY.fullmatch(last + b"\n")) and wanted.startswith(front)


def is_front(wanted, out, kind):
    """Whether standard output has what may stand there where memory runs out."""
    if kind == "lines":
        return wanted.startswith(out) and (not out or out.endswith(b"\n"))
    if kind in ("page", "front"):
        return wanted.startswith(out)
    return not out or kind == "behind" and out == wanted


def without(names, text):
    """The lines of a text but those on these programs, with what stands under them."""
    return re.sub(rb"(?m)^(" + b"|".join(map(re.escape, names)) + rb"): .*\n(  .*\n)*", b"", text)


def are_several(wanted, found, most):
    """Whether at most so many of several programs are told to want memory, each once, and of the others what is wanted."""
    names = re.findall(rb"(?m)^(.+): no memory$", found.told)
    if found.status != 5 or not 0 < len(set(names)) == len(names) <= most:
        return False
    return found.out == without(names, wanted.out) and without(names, found.told) == without(names, wanted.told)


def are_judged(case, wanted, found, most):
    """Whether at most so many of several programs have a line that says that they want memory, and the others the line that is wanted; the counts are those of these lines."""
    is_csv = "--csv" in case.words
    lines, whole = found.out.splitlines(), wanted.out.splitlines()
    last, counts = (len(lines), b"") if is_csv else (len(lines) - 1, lines[-1] if lines else b"")
    if (found.status, found.told) != (5, wanted.told) or len(lines) != len(whole):
        return False
    wants = [(one, other) for one, other in zip(lines[:last], whole[:last]) if one != other]
    mark = re.compile(rb",[^,]*,5,no memory," if is_csv else rb" no memory(,|\Z)")
    told = [one for one, other in wants if mark.match(one, len(re.split(rb"[ ,]", other)[0]))]
    return 0 < len(wants) <= most and len(told) == len(wants) and (is_csv or counts.endswith(b"%d out of memory" % len(wants)))


class Sessions:
    """Sessions of the debugger: `ask` gives the answer to a case's words, and to this on standard input, where no growth is refused."""

    def __init__(self, ask):
        self.ask = ask

    def replies(self, case, commands):
        """The replies to commands, without that to the end of the input."""
        return self.ask(case, b"".join(it + b"\n" for it in commands)).out.removesuffix(b"bye\n")

    def steps(self, case, commands):
        """How many steps were taken behind these commands."""
        behind = self.replies(case, [*commands, b"where"])[len(self.replies(case, commands)):]
        return int(STANDS.match(behind)[1])

    def halt(self, case, commands, out):
        """The number of the first command that is told to want memory, the words, and what stands behind them; or none."""
        same = len(os.path.commonprefix([out, self.replies(case, commands)]))
        number, most = 0, len(commands)
        while number + 1 < most:
            middle = (number + most) // 2
            if len(self.replies(case, commands[:middle])) <= same:
                number = middle
            else:
                most = middle
        front = self.replies(case, commands[:number])
        for words in (LEFT_OUT, HALTED):
            if out.startswith(front + words):
                return number, words, out[len(front + words):]
        return None

    def instead(self, case, commands, out):
        """Commands to which these were the replies if the first one that wants memory were told to take as many steps as it did, and to tell where it
        stands, or weren't given at all; and the replies. None where none wants memory."""
        found = self.halt(case, commands, out)
        if found is None:
            return None
        number, words, behind = found
        before, after = commands[:number], commands[number + 1:]
        if words == LEFT_OUT:
            return [*before, *after], self.replies(case, before) + behind
        there = STANDS.match(behind)
        more = int(there[1]) - self.steps(case, before) if there else -1
        if more < 0:
            return None
        before = [*before, *([b"step %d" % more] if more else [])]
        # by hand, the source line stands behind the reply to `where` alone
        front, asked = self.replies(case, before), self.replies(case, [*before, b"where"])
        line = asked[len(front):].partition(b"\n")[0]
        return ([*before, b"where", *after], asked + behind[len(line) + 1:]) if behind.startswith(line + b"\n") else None

    def is_right(self, case, commands, out, left):
        """Whether these are the replies to commands of which at most so many wanted memory."""
        if out.removesuffix(b"bye\n") == self.replies(case, commands):
            return True
        found = self.instead(case, commands, out) if left else None
        return found is not None and self.is_right(case, *found, left - 1)


def told_in(message):
    """What a message tells of want of memory, if it does."""
    return "no memory" in (message.get("message"), (message.get("body") or {}).get("description"))


def is_begun(front, whole):
    """Whether these messages are the first ones of those, the last of them an output of the lines so far, perhaps."""
    if not front or front == whole[:len(front)]:
        return True
    last, wanted = front[-1], whole[len(front) - 1] if len(front) <= len(whole) else {}
    if last.get("event") != "output" or wanted.get("event") != "output":
        return False
    texts = [it["body"]["output"] for it in (last, wanted)]
    return front[:-1] == whole[:len(front) - 1] and texts[0].endswith("\n") and texts[1].startswith(texts[0])


def is_right_talk(wanted, found, most):
    """Whether the debug adapter ended for want of memory behind whole messages, the first ones of those that are wanted, or told it in at most so many and
    went on, with an answer to each request."""
    messages, whole = rows.messages_in(found.out), rows.messages_in(wanted.out)
    if messages is None:
        return False
    wants = [number for number, message in enumerate(messages) if told_in(message)]
    front = messages[:wants[0]] if wants else messages
    if not is_begun(front, whole) or len(wants) > most:
        return False
    if found.status == 5:
        return bool(NO_MEMORY.fullmatch(found.told))
    answers = [[(it["request_seq"], it["command"]) for it in them if it["type"] == "response"] for them in (messages, whole)]
    return bool(wants) and (found.status, found.told) == (wanted.status, wanted.told) and answers[0] == answers[1]


def one_by_one(case, wanted, ask):
    """The answer with each notice told in a line of its own."""
    def notices(summary):
        if case.words in ((), ("--talk",)):
            return ask(dataclasses.replace(case, words=(), at_terminal=False), case.given).told
        name = summary[1].decode() if summary[1] else case.words[1]
        told = ask(dataclasses.replace(case, words=("check", name)), b"").told
        return b"".join((summary[1] + b": " if summary[1] else b"") + it for it in told.splitlines(True))

    return dataclasses.replace(wanted, told=SUMMARY.sub(notices, wanted.told)) if SUMMARY.search(wanted.told) else wanted


def is_right(case, wanted, found, ask):
    """Whether an answer tells want of memory as it should."""
    if found.status == 5 and not found.image and is_told(wanted.told, found.told) and is_front(wanted.out, found.out, case.kind):
        return True
    if case.kind == "several":
        return are_several(wanted, found, case.in_a_row)
    if case.kind == "judged":
        return is_told(wanted.told, found.told) and found.status == 5 and is_front(wanted.out, found.out, "lines") or are_judged(case, wanted, found, case.in_a_row)
    if case.kind == "adapter":
        return is_right_talk(wanted, found, case.in_a_row)
    if case.kind == "session" and (found.status, found.told) == (wanted.status, wanted.told):
        return Sessions(ask).is_right(case, case.given.split(b"\n")[:-1], found.out, case.in_a_row)
    return False


def without_prompts(answer):
    """An answer without the prompts of a session by hand, and without what is said before the first of them."""
    return dataclasses.replace(answer, told=GREETING.sub(b"", answer.told.replace(b"(vcm) ", b"")))


def judged(case, wanted, found, ask):
    """Whether an answer is right, the same as without a refusal, or wrong. `ask` is as in `Sessions`."""
    if case.kind == "session":
        wanted, found = without_prompts(wanted), without_prompts(found)
    for plain in (wanted, one_by_one(case, wanted, ask)):
        if found == plain:
            return "same"
        if is_right(case, plain, found, ask):
            return "right"
    return "wrong"
