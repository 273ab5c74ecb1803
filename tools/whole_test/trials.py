"""One text with its part, the machines of all readings that carry it out, and what the comparison finds."""
import os
import random
import re
from collections import Counter

import answers
import comparison
import parts
import planted
import program as programs
import readings
import shrinking
import texts
from course import Course
from machine import Machine


class Trial:
    """One text. Without `text` it is the one of the seed; readings and courses are those of the seed always."""

    def __init__(self, seed, options, text=None):
        self.seed, self.options, self.part_text = seed, options, options.part_text
        part = parts.read(self.part_text) if self.part_text else parts.Part()
        self.text = texts.Writer(seed, options.without, part.tip).text() if text is None else text
        self.program = programs.linked(self.text)
        found = readings.tried(random.Random(f"readings {seed}"), options.fixed)
        self.readings = {name: reading for name, reading in found.items() if options.only in ("", name)}
        self.part = part if self.part_text else self.grown()
        self.answer, self.results = None, []

    def grown(self):
        """The part that the touches of all machines are to meet."""
        growing = parts.GrowingPart(self.seed if self.seed % 2 else None)
        self.machines(Machine, growing)
        return parts.Part(blocks=growing.blocks)

    def machines(self, kind, part=None):
        """The text carried out on a machine of each reading."""
        made = [kind(self.program, part or self.part, reading, Course(f"{self.seed} {name}")) for name, reading in self.readings.items()]
        return [it.run() for it in made]

    def files(self, folder, name):
        """Writes the text and its part, and gives the names of the files."""
        names = [f"{folder}/{name}.dmi", f"{folder}/{name}.toml"]
        for name, text in zip(names, (self.text, self.part_text or self.part.written())):
            with open(name, "w", encoding="utf-8") as it:
                it.write(text)
        return names

    def run(self, folder):
        """Asks the program, or the model of one, and compares its answer with each machine."""
        options = self.options
        if options.program:
            names = self.files(folder, f"tried-{self.seed}")
            self.answer = answers.asked(options.program, options.option, *names, self.program, self.part.home)
            for name in names:
                os.remove(name)
        else:
            self.answer = planted.modelled(Machine, self.machines, options.planted)
        planted.change(self.answer, options.planted or 0, self.seed)
        if not self.answer.refused:
            self.results = [comparison.Comparison(it, self.answer, self.within()).run() for it in self.machines(Machine)]
        return self

    def within(self):
        """How far a tried way may lie from the machine's: farther where the text has quotients or factors with decimals, which are cut off."""
        is_cut = any(re.search(r"/\d|\*\d*\.\d", line.partition("/")[2]) for line in self.text.splitlines())
        return max(self.options.within, comparison.CUT if is_cut else 0)

    def failures(self):
        """The failures: for each reading and kind the first sentence, and how many there are."""
        if self.answer.refused:
            return {("all", "refused"): (self.answer.refused, 1)}
        found = {}
        for name, result in zip(self.readings, self.results):
            for kind, sentence in result.wrong + result.untold:
                first, count = found.get((name, kind), (sentence, 0))
                found[name, kind] = first, count + 1
        return found

    def told(self):
        """The failures in words."""
        lines = []
        for (name, kind), (sentence, count) in self.failures().items():
            more = f" (and {count - 1} more)" if count > 1 else ""
            of_reading = f" [reading {name}: {readings.told(self.readings[name])}]" if name in self.readings else ""
            lines.append(f"seed {self.seed} {kind}: {sentence}{more}{of_reading}")
        return lines

    def counts(self):
        """What all comparisons of this text count together."""
        total = Counter()
        for it in self.results:
            total.update(ways=it.ways, tried=it.tried, elsewhere=it.elsewhere, wrong=len(it.wrong), untold=len(it.untold))
        return total

    def kept(self, folder, name):
        """Writes the text, its part, and its failures into a folder."""
        os.makedirs(folder, exist_ok=True)
        self.files(folder, name)
        with open(f"{folder}/{name}.txt", "w", encoding="utf-8") as it:
            it.write("\n".join(self.told()) + "\n")

    def shrunk(self, folder):
        """The trial of a text with fewer lines that fails as the first failure of this one does. Its lines keep their numbers."""
        wanted = next(iter(self.failures()))
        needed = {word for word in ("UNITS/", "MODE/", "DECL/") if word in self.text}

        def fails(text):
            try:
                return programs.is_whole(text) and all(word in text for word in needed) and wanted in Trial(self.seed, self.options, text).run(folder).failures()
            except (IndexError, KeyError):
                return False

        return Trial(self.seed, self.options, shrinking.smaller(self.text, fails)).run(folder)
