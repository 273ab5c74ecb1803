// What vcm tells, read: faults with their lines, the stop, why it came, keys that nothing uses, and what wasn't tried.

// A text of vcm as it is shown: characters that turn the direction of writing, have no width or are no text are made visible.
function shown(text) {
  return text
    .replace(/[\u0000-\u0008\u000b-\u001f]/g, (c) => String.fromCharCode(0x2400 + c.charCodeAt(0)))
    .replace(/[\u007f-\u009f\u061c\u200b-\u200f\u2028-\u202e\u2060-\u2069\ufeff]/g, (c) => "[U+" + c.charCodeAt(0).toString(16).toUpperCase().padStart(4, "0") + "]");
}

// The faults that vcm tells: what it is, its line or block where it has one, the statement that stands below it, and what it is about where a second line tells that.
function faultsOf(text) {
  const faults = [];
  for (const line of text.split("\n")) {
    const found = /^([A-Z]\d\d \w+)(?: (line|block|box|probe|swing) (\d+))?(?: box (\d+))?(?: [\w.?-]+){0,2}$/.exec(line);
    if (found) faults.push({ text: line, code: found[1], place: found[2], number: Number(found[3]), inner: Number(found[4] || 0), statement: "", about: "", below: 0 });
    else if (line.startsWith("  ") && faults.length) {
      const last = faults[faults.length - 1];
      last[last.below++ ? "about" : "statement"] = line.trim();
    }
  }
  return faults;
}

// A text of `vcm explain` without its first line and without the ends of lines within sentences.
const flowing = (text) => text.trim().replace(/^.*\n/, "").replace(/^(\S.{60,})\n(?!\s|Do:|For example|gives)/gm, "$1 ");

// The words that `vcm explain` is asked for: of a fault its code, of a stop all of it.
const explained = (text) => (/^[A-Z]\d\d /.test(text) ? [text.slice(0, 3)] : text.split(" "));

// Notices: lines of the program without effect, keys of the part that nothing uses.
const noticesOf = (text) => [...text.matchAll(/^(?:.*: )?notice line (\d+): (.*)$/gm)].map((it) => ({ line: Number(it[1]), text: it[2] }));

// Where `vcm part` finds a fault of a part: its line, and the sentence.
function partFaultOf(text) {
  const found = /^(?!notice ).*?\bline (\d+): (.*)$/m.exec(text);
  return found && { line: Number(found[1]), text: found[2] };
}

// The lines on which the blocks of a part stand, from what `vcm part` prints.
const blockLinesOf = (text) => new Map([...text.matchAll(/^block (\d+) line (\d+) /gm)].map((it) => [Number(it[1]), Number(it[2])]));

// The lines on which a table of an array stands, as a block of a part or a box of a probe, from a line on: those up to the next table.
function linesOfTable(text, name, number, first = 0) {
  const lines = text.split("\n"), heads = lines.flatMap((it, i) => (i >= first && it.replace(/\s|#.*/g, "") === `[[${name}]]` ? [i] : []));
  const from = heads[number - 1];
  if (from === undefined) return [];
  let to = from + 1;
  while (to < lines.length && !/^\s*(\[|$)/.test(lines[to])) to++;
  return lines.slice(from, to).map((_, i) => from + i + 1);
}

const linesOfBlock = (text, block) => linesOfTable(text, "block", block);

// The lines of what is at fault in the file of a probe, or of several.
function linesOfProbe(text, { place, number, inner }) {
  if (place === "line") return [number];
  if (place !== "probe") return place ? linesOfTable(text, place, number) : [];
  const own = linesOfTable(text, "probe", number);
  return inner && own.length ? linesOfTable(text, "probe.box", inner, own[0]) : own;
}

// Whether a program was run: to a stop, to the number of steps, or to its end with motions that weren't tried. Of what was printed then the line of the stop, which
// the place and the number of steps follow.
const hasRun = (ran) => [0, 3, 4, 7].includes(ran.status);
const stopOf = (printed) => printed.trimEnd().split("\n").at(-3) || "";

// A stop, as `vcm run` prints it.
function readStop(text) {
  const place = / at \d+ line (\d+)$/.exec(text), hit = /^stop COLLISION (\w+) block (\d+) permille (\d+)/.exec(text);
  return {
    text,
    word: (/^stop (\w+)/.exec(text) || [])[1] || "",
    kind: (/^stop (?:COLLISION|TRAVEL) (MOVE|APPROACH|SEARCH|RETRACT)/.exec(text) || [])[1] || "",
    line: place ? Number(place[1]) : 0,
    block: hit ? Number(hit[2]) : 0,
  };
}

const point = "(-?[\\d.]+) (-?[\\d.]+) (-?[\\d.]+)";

// What `vcm why` tells.
function readWhy(text) {
  const why = { calls: [], rounds: [], hints: [] };
  for (const line of text.split("\n")) {
    let it;
    if ((it = /^block \d+ is "(.*)"$/.exec(line))) why.name = it[1];
    else if ((it = /^line (\d+): (.*)$/.exec(line))) [why.line, why.statement] = [Number(it[1]), it[2]];
    else if ((it = /^in (M\(\w+\)) from line (\d+): (.*)$/.exec(line))) why.calls.push({ macro: it[1], line: Number(it[2]), statement: it[3] });
    else if ((it = /^round (\d+) of DO line (\d+), (.*) (\S+)$/.exec(line))) why.rounds.push({ round: Number(it[1]), line: Number(it[2]), value: `${it[3]} ${it[4]}` });
    else if ((it = new RegExp(`^way ${point} to ${point}$`).exec(line))) why.way = [it.slice(1, 4), it.slice(4, 7)];
    else if ((it = new RegExp(`^contact of the tip's centre at ${point} with block (\\d+), `).exec(line))) [why.contact, why.block] = [it.slice(1, 4), Number(it[4])];
    else if (line.startsWith("free over it ") || line.startsWith("free beside it ")) why.free = line.slice(5);
    else if ((it = /^past a limit: (.*)$/.exec(line))) why.hints.push(it[1].replace(/^[xyz]/, (c) => c.toUpperCase()).replace(/(below|above) /, "$1 the limit "));
    else if (/^(the next block on that line is|no block lies farther|a retract of) /.test(line)) why.hints.push(line);
    else if ((it = /^frame of line (\d+): (.*)$/.exec(line))) why.frame = { line: Number(it[1]), text: it[2] };
  }
  return why;
}

// The length of a way between two points in millimetres, as a person reads it.
const far = (a, b) => Math.hypot(...a.map((x, k) => b[k] - x)).toFixed(1);

// Lines as `24-26 30(2)`, each with its motions.
const linesOfList = (text) => text.split(" ").flatMap((it) => {
  const [, from, to] = /^(\d+)(?:-(\d+))?/.exec(it) || [];
  return from === undefined ? [] : Array.from({ length: Math.min(Number(to || from) - Number(from) + 1, 100000) }, (_, i) => Number(from) + i);
});

// What a run of a whole text reports at its end: motions that weren't tried, points that weren't touched, ways that begin elsewhere, output that isn't written, other tips, and where nothing is
// known any more.
function readUntried(text) {
  const found = [];
  for (const line of text.split("\n")) {
    const it = /^(not tried|approached, not touched|begins elsewhere|not reported) (\d+): lines? ([\d() -]+)(?:, (.*))?$/.exec(line), on = /^not tried from line (\d+) on/.exec(line);
    const tip = /^another tip since lines? ([\d() -]+)$/.exec(line);
    if (it) found.push({ text: line, kind: it[1], count: Number(it[2]), lines: linesOfList(it[3]), cause: it[4] || "" });
    else if (tip) found.push({ text: line, kind: "another tip", count: linesOfList(tip[1]).length, lines: linesOfList(tip[1]), cause: "what comes behind it is tried with the tip of the part" });
    else if (on) found.push({ text: line, kind: "from", count: 0, lines: [Number(on[1])], cause: "it isn't known how the program goes on" });
  }
  return found;
}

// Whether a text is one that `vcm adapt` wrote, and the text from which it came: what was left out or put otherwise stands behind `$$- `.
const isAdapted = (text) => /^.*?\$\$- /m.test(text);
const adaptedLines = (text) => (text.match(/^.*?\$\$- /gm) || []).length;
const restored = (text) => text.replace(/^.*?\$\$- /gm, "");

// Of an adapted text what `vcm survey --lines` says wasn't tried, where it is a comment now, and ways that begin elsewhere than the machine's.
function readLeftOut(survey, adapted) {
  const lines = adapted.split("\n"), found = [];
  const untried = [...survey.matchAll(/^line (\d+): not tried: (.*?): /gm)].filter((it) => /^\s*\$\$- /.test(lines[it[1] - 1] || ""));
  for (const it of untried) found.push({ text: `not tried 1: lines ${it[1]}, ${it[2]}`, kind: "not tried", count: 1, lines: [Number(it[1])], cause: it[2] });
  for (const it of survey.matchAll(/^\s+line (\d+): the way to here begins where (.*)$/gm)) found.push({ text: it[0].trim(), kind: "begins elsewhere", count: 1, lines: [Number(it[1])], cause: "the way to here begins where " + it[2] });
  return found;
}

// Of a run with several probes the first end of a way at which the pivot lies beyond its limits, and where the run ends because no probe has the number that is asked for.
const firstBeyondOf = (text) => (/^beyond \w+ at \d+ line (\d+) /m.exec(text) || []).slice(1).map(Number)[0] || 0;
function lostOf(text) {
  const found = /^no probe (\d+|-\d+) at \d+ line (\d+) /m.exec(text);
  return found && { value: found[1], line: Number(found[2]) };
}

// The first contact of a box of the probe, from what `vcm clearance` prints.
function firstMetOf(text) {
  const found = /^contact (\S+) (\w+) block (\d+) permille \d+ at \d+ line (\d+) step (\d+) position (\S+ \S+ \S+)$/m.exec(text);
  return found && { name: found[1], kind: found[2], block: Number(found[3]), line: Number(found[4]), step: Number(found[5]), at: found[6] };
}
