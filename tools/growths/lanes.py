"""Runs of the program with growths of memory refused, side by side."""
from __future__ import annotations

import collections
import dataclasses
import multiprocessing
import os
import shutil
import struct
import subprocess
import tempfile

import cases
import judging

HERE = os.path.dirname(os.path.abspath(__file__))
CLANG = "/opt/rattle/toolchain/bin/clang"
COMPILERS = (["gcc"], [CLANG, "--target=x86_64-unknown-linux-gnu", "--no-default-config", "-nostdlib"])
FLAGS = ["-shared", "-fPIC", "-O1", "-fno-builtin"]
# What the library refuses growths of; what else a program could take memory by.
COVERED = {"malloc", "calloc", "realloc", "memalign", "aligned_alloc", "posix_memalign"}
OTHERS = {"mmap", "mmap64", "mremap", "brk", "sbrk", "valloc", "pvalloc", "reallocarray", "strdup", "strndup", "asprintf", "vasprintf", "getline", "getdelim",
          "open_memstream", "fopen", "fopen64", "fdopen", "opendir", "fdopendir", "scandir", "realpath", "getcwd"}
# How many growths one task refuses.
STRETCH = 100
# How many wrong answers of a case are told.
MOST_TOLD = 5


@dataclasses.dataclass(frozen=True)
class Answer:
    """What a command line answers: its status, standard output, standard error, and the image that it wrote, if it did."""

    status: int
    out: bytes
    told: bytes
    image: bytes | None


def read(path):
    """The bytes of a file; none where there is no file."""
    try:
        with open(path, "rb") as it:
            return it.read()
    except FileNotFoundError:
        return None


def compiled(folder):
    """The library that is preloaded, or None where no compiler makes it."""
    made = f"{folder}/server.so"
    for compiler in COMPILERS:
        if shutil.which(compiler[0]) and not subprocess.run([*compiler, *FLAGS, "-o", made, f"{HERE}/server.c"]).returncode:
            return made
    return None


def uncovered(program):
    """The functions by which a program takes memory that can't be refused here."""
    how = {"capture_output": True, "text": True, "check": True}
    ran = subprocess.run(["llvm-nm", "-D", "--undefined-only", "-j", program], executable=CLANG, **how)
    names = {it.partition("@")[0] for it in ran.stdout.split()}
    return sorted(names & OTHERS) if names & COVERED else ["none of those that are known"]


class Lane:
    """A program that waits for runs, in a folder of its own."""

    def __init__(self, program, library, folder):
        self.room = folder
        self.here = f"{folder}/here"
        self.known = {}
        os.makedirs(folder)
        cases.lay_out(self.here)
        self.server = subprocess.Popen(
            [program, folder], cwd=self.here, stdin=subprocess.PIPE, stdout=subprocess.PIPE, env={"PATH": os.defpath, "LD_PRELOAD": library}
        )
        for line, name in cases.MADE:
            made, _, _ = self.run(cases.case(line), b"", 0)
            with open(f"{self.here}/{name}", "wb") as it:
                it.write(made.image or made.out)

    def end(self):
        self.server.stdin.close()
        self.server.wait()
        shutil.rmtree(self.room, ignore_errors=True)

    def run(self, case, given, first):
        """The answer to a case's words and to this on standard input, how many growths it had, and whether one was refused."""
        if self.known.get("in") != given:
            with open(f"{self.room}/in", "wb") as it:
                it.write(given)
            self.known["in"] = given
        words = b"".join(it.encode() + b"\0" for it in ("vcm", *case.words))
        numbers = (first, case.in_a_row, case.at_terminal, len(case.words) + 1, len(words))
        self.server.stdin.write(struct.pack("=5I", *numbers) + words)
        self.server.stdin.flush()
        told = self.server.stdout.read(12)
        if len(told) < 12:
            raise OSError(f"the program ended that waits for runs, at {case}")
        status, count, was_refused = struct.unpack("=3I", told)
        code = os.waitstatus_to_exitcode(status)
        answer = Answer(code, read(f"{self.room}/out"), read(f"{self.room}/err"), read(f"{self.room}/image"))
        return answer, count, bool(was_refused)

    def ask(self, case, given):
        """The answer to a case's words and to this on standard input, where no growth is refused."""
        key = case.words, case.at_terminal, given
        if key not in self.known:
            self.known[key], _, _ = self.run(case, given, 0)
        return self.known[key]

    def sweep(self, case, numbers):
        """How many answers of a case are right, the same and wrong where these growths are refused, and what is told of the wrong ones."""
        counts, told, judgements = collections.Counter(), [], {}
        wanted = self.ask(case, case.given)
        for number in numbers:
            found, _, was_refused = self.run(case, case.given, number)
            if (found, was_refused) not in judgements:
                judgements[found, was_refused] = judging.judged(case, wanted, found, self.ask) if was_refused else "wrong"
            how = judgements[found, was_refused]
            counts[how] += 1
            if how == "wrong" and len(told) < MOST_TOLD:
                why = f"status {found.status} {found.out[-120:]} {found.told[-120:]}" if was_refused else "it wasn't reached"
                told.append(f"wrong: growth {number} of {case}: {why}")
        return counts, told


lane = None


def start(program, library, folder):
    """Begins a lane of this process. Where that fails, its first task does: a pool begins a process that ends again and again."""
    global lane
    try:
        lane = Lane(program, library, f"{folder}/{os.getpid()}")
    except OSError as error:
        print(f"gate: a lane doesn't begin: {error}", flush=True)


def growths_of(case):
    """How many growths a case has, and what is wrong with its answer, if anything is."""
    answer, count, _ = lane.run(case, case.given, 0)
    if answer.status != case.status:
        return count, f"wrong: {case}: status {answer.status} where {case.status} is wanted: {answer.told[-200:]}"
    return count, None if count else f"wrong: {case}: no growth"


def swept(task):
    """The number of a case, and what its growths in a stretch came to."""
    at, case, numbers = task
    return at, *lane.sweep(case, numbers)


def table_of(program, library, folder):
    """The commands and options of the program, by its own help."""
    first = Lane(program, library, f"{folder}/table")
    try:
        text = lambda line: first.run(cases.case(line), b"", 0)[0].out.decode()
        return {name: cases.options_in(text(f"{name} --help")) for name in cases.commands_in(text("--help"))}
    finally:
        first.end()


def room_in_memory():
    """A folder that is kept in memory, if there is one."""
    return "/dev/shm" if os.access("/dev/shm", os.W_OK | os.X_OK) else None


def sweep(program, lanes, say):
    """Refuses all growths of all cases in turn: how many answers are right or the same, and how many are wrong."""
    with tempfile.TemporaryDirectory(prefix="growths-", dir=room_in_memory()) as folder:
        library = compiled(folder)
        if library is None:
            say("wrong: neither gcc nor the toolchain's clang compiles tools/growths/server.c")
            return 0, 1
        others = uncovered(program)
        if others:
            say(f"wrong: growths by {', '.join(others)} aren't refused: tools/growths/server.c has to")
            return 0, 1
        table = table_of(program, library, folder)
        found = cases.cases(table)
        wrong = [f"wrong: tools/growths/cases.py has no case of {it}" for it in cases.lacking(table, found)]
        wrong += [] if table else ["wrong: the program's help has no commands"]
        with multiprocessing.get_context("fork").Pool(lanes, start, (program, library, folder)) as pool:
            sizes = pool.map(growths_of, found, chunksize=4)
            wrong += [told for _, told in sizes if told]
            tasks = [
                (at, found[at], range(first, min(first + STRETCH, count + 1)))
                for at, (count, told) in enumerate(sizes)
                if not told
                for first in range(1, count + 1, STRETCH)
            ]
            counts, said = collections.defaultdict(collections.Counter), collections.Counter()
            for text in wrong:
                say(text)
            for at, more, told in pool.imap_unordered(swept, tasks):
                name = found[at].words[0] if found[at].words and found[at].words[0] in table else "job" if found[at].words in ((), ("--talk",)) else "help"
                counts[name].update(more)
                for text in told:
                    said[at] += 1
                    if said[at] <= MOST_TOLD:
                        say(text)
        for name, of in sorted(counts.items(), key=lambda it: -sum(it[1].values())):
            say(f"growths of {name}: {sum(of.values())}, {of['right']} told, {of['same']} with the same answer, {of['wrong']} wrong")
        well = sum(of["right"] + of["same"] for of in counts.values())
        return well, sum(of["wrong"] for of in counts.values()) + len(wrong)
