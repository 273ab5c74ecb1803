// The verdict of the whole page: one sentence in words and millimetres, what mends it, and the line it is about; and the card that says why a run stops.

const counted = (n, one, more) => `${n.toLocaleString("en")} ${n === 1 ? one : more}`;
const listed = (lines, most = 12) => [...new Set(lines)].slice(0, most).join(" ") + (new Set(lines).size > most ? ` and ${new Set(lines).size - most} more` : "");
const linesText = (lines) => (new Set(lines).size === 1 ? "line " : "lines ") + listed(lines);
const blockText = (block, name) => `block ${block}` + (name ? `, \u201c${name}\u201d` : "");
// A body of the probe, of one of several, or of what turns.
function bodyText({ name, kind }) {
  const [probe, body] = name.split("/");
  return kind === "SWING" ? `in its turn the head (${name})` : body ? `the ${body} of ${probe}` : `the ${name} of the probe`;
}
const capitals = (free) => free.replace(/\b[xyz](?= -?\d)/g, (c) => c.toUpperCase());

// What wasn't tried, as sentences without their ends.
function untriedText(untried) {
  const of = (kind) => untried.filter((it) => it.kind === kind), count = (them) => them.reduce((sum, it) => sum + it.count, 0), parts = [];
  const not = of("not tried"), approached = of("approached, not touched"), elsewhere = of("begins elsewhere"), reported = of("not reported"), tips = of("another tip"), on = of("from");
  if (not.length) parts.push(`${counted(count(not), "motion wasn't", "motions weren't")} tried: ${linesText(not.flatMap((it) => it.lines))}`);
  if (on.length) parts.push(`nothing is tried from line ${on[0].lines[0]} on`);
  if (approached.length) parts.push(`${counted(count(approached), "point is", "points are")} approached and not touched: ${linesText(approached.flatMap((it) => it.lines))}`);
  if (elsewhere.length) parts.push(`${counted(count(elsewhere), "way begins", "ways begin")} elsewhere: ${linesText(elsewhere.flatMap((it) => it.lines))}`);
  if (reported.length) parts.push(`${counted(count(reported), "output isn't", "outputs aren't")} written: ${linesText(reported.flatMap((it) => it.lines))}`);
  if (tips.length) parts.push(`another tip is selected: ${linesText(tips.flatMap((it) => it.lines))}`);
  return parts;
}

function stopHeadline(stop, why) {
  const it = stop.block ? blockText(stop.block, why.name) : "", call = why.calls[0], where = call ? `, in ${call.macro} called from line ${call.line}` : "";
  if (stop.word === "COLLISION") {
    const how = { MOVE: "drives the probe into", APPROACH: "on its way to the point the probe meets", SEARCH: "in its search the probe meets", RETRACT: "on its way back the probe meets" }[stop.kind];
    return `Line ${stop.line}${stop.kind === "MOVE" ? "" : ":"} ${how} ${it}${where}`;
  }
  if (stop.word === "TRAVEL") return `Line ${stop.line} leads beyond the limits of the machine${where}`;
  if (stop.word === "MISSED") return `Line ${stop.line} touches nothing${where}`;
  return `Line ${stop.line} stops the run${where}: ${stop.text.replace(/^stop /, "").replace(/ at \d+ line \d+$/, "")}`;
}

function stopDetail(stop, why, meaning) {
  const parts = [], kind = stop.kind.toLowerCase();
  if (why.way && why.contact) parts.push(`${far(why.way[0], why.contact)} mm into ${kind === "approach" ? "an" : "a"} ${kind} of ${far(...why.way)} mm`);
  else if (why.way) parts.push(`${kind || "way"} from ${why.way[0].join(" ")} to ${why.way[1].join(" ")}`);
  if (why.free) parts.push("free " + capitals(why.free).replace(", ", ", or "));
  parts.push(...why.hints);
  if (parts.length === 0 && meaning) parts.push(meaning.split(/\n\n|(?<=\.)\s/)[0].replace(/\.$/, ""));
  return parts;
}

// What there is to tell of texts: `faults` of each text, or how the run ended, with what wasn't tried, keys that nothing uses and the first contact of a box.
function verdictOf({ faults, ran, stop, why, untried, unused, met, metName, beyond, lost, meaning, failed, steps, adapted }) {
  if (failed) return { kind: "bad", sign: "\u2715", headline: failed, detail: [] };
  if (faults.length) {
    const first = faults[0], of = { program: "the program", part: "the part", probe: "the probe" }[first.which];
    return { kind: "bad", sign: "\u2715", headline: counted(faults.length, "fault", "faults") + (first.line ? `: line ${first.line} of ${of}` : ` in ${of}`), detail: [[first.text, first.statement].filter(Boolean).join(": ")], line: first.line, which: first.which };
  }
  const all = untriedText(untried), end = ran.status === 7 && all.length === 0 ? ["not all of it was tried"] : all, told = { detail: [], which: "program", line: 0 };
  const measured = ran.measured ? [counted(ran.measured, "point", "points") + " measured"] : [];
  const left = unused.map((it) => `line ${it.line} of the part: ${it.text}`);
  if (met) {
    const tip = ran.status === 3 ? stopHeadline(stop, why) : "the tip itself meets nothing";
    Object.assign(told, { kind: "bad", sign: "\u2715", headline: `Line ${met.line}: ${bodyText(met)} meets ${blockText(met.block, metName)}`, line: met.line, contact: true, detail: [met.kind === "SWING" ? `the pivot at ${met.at}` : `in its ${met.kind.toLowerCase()}, the tip at ${met.at}`, tip, ...end, ...left] });
  } else if (lost) {
    Object.assign(told, { kind: "bad", sign: "\u2715", headline: `Line ${lost.line}: no probe has the number ${lost.value}`, line: lost.line, detail: ["no motion goes with a probe that the file of the probes doesn't have", ...measured, ...end, ...left] });
  } else if (beyond && ran.status !== 3) {
    Object.assign(told, { kind: "bad", sign: "\u2715", headline: `Line ${beyond}: the pivot of the head goes beyond its limits`, line: beyond, detail: [...measured, ...end, ...left] });
  } else if (ran.status === 3) {
    Object.assign(told, { kind: "bad", sign: "\u2715", headline: stopHeadline(stop, why), line: stop.line, contact: true, detail: [...stopDetail(stop, why, meaning), ...measured.map((it) => it + " before"), ...end, ...left] });
  } else if (ran.status === 4) {
    Object.assign(told, { kind: "warn", sign: "\u2026", headline: `Not at its end after ${Number(steps).toLocaleString("en")} steps`, detail: [...measured, ...end, ...left] });
  } else if (end.length) {
    const [first, ...rest] = end;
    Object.assign(told, { kind: "warn", sign: "?", headline: `Comes to its end, but ${first}`, line: untried.length ? untried[0].lines[0] : 0, detail: [...rest, ...measured, ...left] });
  } else if (left.length) {
    Object.assign(told, { kind: "warn", sign: "!", headline: `Comes to its end without a collision, but ${left[0]}`, which: "part", line: unused[0].line, detail: [...left.slice(1), ...measured] });
  } else {
    Object.assign(told, { kind: "ok", sign: "\u2713", headline: "Comes to its end without a collision", detail: [`${counted(ran.steps, "step", "steps")}`, ...measured] });
  }
  if (adapted) told.detail.push(`${counted(adapted, "line was", "lines were")} put otherwise or left out by vcm adapt`);
  if (ran.notices.length) told.detail.push(`${linesText(ran.notices)} without effect`);
  return told;
}

const sentences = (parts) => parts.map((it) => it.replace(/^./, (c) => c.toUpperCase()) + ".").join(" ");

// The card that says why: the line, its calls and rounds, the way, what is met and from where on it would be free. Lines are links.
function whyRows(stop, why, blockLines) {
  const rows = [], link = (which, line, text) => ({ which, line, text });
  if (!why.line) return rows;
  rows.push(["Line", [link("program", why.line, String(why.line)), " " + why.statement]]);
  for (const it of why.calls) rows.push(["Called", [`in ${it.macro} from `, link("program", it.line, `line ${it.line}`), `: ${it.statement}`]]);
  for (const it of why.rounds) rows.push(["Round", [`${it.round} of DO `, link("program", it.line, `line ${it.line}`), `, ${it.value}`]]);
  if (why.way) rows.push(["Way", [`${why.way[0].join(" ")} \u2192 ${why.way[1].join(" ")}`]]);
  if (why.contact) {
    const line = blockLines.get(why.block);
    rows.push(["Contact", [`${why.contact.join(" ")} with ${blockText(why.block, why.name)}`, ...(line ? [" (", link("part", line, `part line ${line}`), ")"] : [])]]);
  }
  if (why.free) rows.push(["Free", [capitals(why.free)]]);
  if (why.hints.length) rows.push([why.free ? "Or" : "Hint", [why.hints.join("; ")]]);
  if (why.frame) rows.push(["Frame", ["of ", link("program", why.frame.line, `line ${why.frame.line}`), `: ${why.frame.text}`]]);
  return rows;
}
