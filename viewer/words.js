// What is said of a run in words: how it ended, what a step did, how wide the tip is, how far a point is off.

const stopWords = { TRAVEL: "Outside the limits", MISSED: "Touched nothing" };
const countText = (n, one, more) => n.toLocaleString("en") + " " + (n === 1 ? one : more);
const tipText = (run, k = 0) => (tipAt(run, k) ? `tip \u2300 ${millimetres(2 * tipAt(run, k))} mm` : "tip a point");
const frameText = (frame) => (frame.name ? frame.name + ": " : "") + "origin " + frame.origin.map(millimetres).join(" ") + ", X " + frame.axes[0] + ", Y " + frame.axes[1] + ", Z " + frame.axes[2];
const metText = (run, box, contact) => `${box.isSwing ? "in its turn the head (" + box.name + ")" : box.title} meets ${blockText(run, contact.block)}`;

// The line on which the run stopped before its end, or 0.
const stopLineOf = (run) => (run.stop && !run.stop.text.startsWith("stop ENDED") ? rowAt(run, run.stop.step) : 0);

// How the run ended, which hangs on the tip alone.
function endingOf(run) {
  const line = run.stop ? run.stop.text.slice(5) : run.open ? run.open.text : "";
  const word = line.split(" ")[0];
  const place = /at (\d+) line (\d+)$/.exec(line);
  const hit = /block (\d+) permille (\d+)/.exec(line);
  let text, kind = "bad";
  if (run.lost) text = `No probe has the number ${run.lost.value} on line ${run.lost.line}`;
  else if (word === "ENDED") [kind, text] = ["ok", "Came to its end, no collision"];
  else if (!run.stop) [kind, text] = ["warn", "Not at its end: " + line];
  else if (hit) text = `Collision with ${blockText(run, Number(hit[1]))} on line ${place[2]}${callText(run)}, ${wayText(run, line.split(" ")[1].toLowerCase(), hit[2])}`;
  else text = (stopWords[word] || "Stopped: " + word) + (word === "TRAVEL" ? " (" + line.split(" ")[1].toLowerCase() + ")" : "") + (place ? " on line " + place[2] + callText(run) : "");
  return { kind, text, line };
}

// The call that the line of the stop comes from, where the page says why it stops.
function callText(run) {
  const call = run.why && run.why.lines.find((it) => it.call);
  return call ? `, in ${call.call} called from line ${call.line}` : "";
}

// How far the probe came on the way to a contact, in millimetres; in thousandths where the way isn't in the page.
function wayText(run, kind, permille) {
  const i = run.kinds.lastIndexOf("x"), { contact } = run;
  if (i < 0 || !contact || run.pieceStep[i] !== contact.step) return `after ${permille} thousandths of the ${kind}`;
  // of the way that is stopped the piece up to the contact stands before that which isn't reached
  const before = run.ends.subarray(i > run.pieceFrom[contact.step] ? 6 * (i - 1) : 6 * i);
  const aim = run.aims.has(i) ? run.aims.get(i).map((it) => 1000 * Number(it)) : run.ends.subarray(6 * i + 3);
  const far = (to) => (Math.hypot(...contact.at.map((_, k) => to[k] - before[k])) / 1000).toFixed(1);
  return `${far(contact.at)} mm into ${kind === "approach" ? "an" : "a"} ${kind} of ${far(aim)} mm`;
}

// Whether something of the text wasn't tried, as a page of `--whole` knows it.
const isPartly = (run) => run.untried !== null && run.untried.told.length > 0;

// The verdict of the page: what the boxes of the probe meet is told first, and then how the run ended.
function verdictOf(run) {
  const told = endingOf(run), first = run.firstMet, more = run.boxes.filter((it) => it.contacts.length).length - 1;
  if (!first && run.beyond.length) return { ...told, kind: "bad", text: `The pivot of the head goes beyond its limits on line ${run.beyond[0].line}; ${told.text}` };
  if (!first) return told;
  const text = `${metText(run, run.boxes.find((it) => it.name === first.name), first).replace(/^in/, "In")} on line ${first.line}` + (more > 0 ? `, and ${more} more of the boxes meet blocks` : "");
  return { ...told, kind: "bad", text: told.kind === "ok" ? `${text}; the tip itself meets nothing` : `${text}; ${told.text}` };
}

// The verdict with what wasn't tried: what ended well is no more than that, and no run is green of which something wasn't tried.
function verdictWithUntried(run) {
  const told = verdictOf(run);
  if (run.adapted) {
    const { count, lines } = run.adapted, most = lines.slice(0, 8).join(" ") + (lines.length > 8 ? " .." : "");
    const text = `${told.text}; ${countText(count, "line was", "lines were")} put otherwise or left out by vcm adapt` + (lines.length ? `, with what may move on ${lines.length === 1 ? "line" : "lines"} ${most}` : "");
    return told.kind === "ok" ? { ...told, kind: "warn", sign: "?", text } : { ...told, text };
  }
  if (!isPartly(run)) return told;
  const text = `${told.text}; not all of it was tried`;
  return told.kind === "ok" ? { ...told, kind: "warn", sign: "?", text } : { ...told, text };
}

// What a page is about, in numbers.
function factsOf(run) {
  const facts = [countText(run.length + run.from, "step", "steps"), countText(run.blocks.length, "block", "blocks"), run.probes ? countText(run.probes.all.length, "probe", "probes") : tipText(run)];
  if (run.touches.length) facts.push(countText(run.touches.length, "measured point", "measured points"));
  if (run.boxes.length && !run.probes) facts.push(countText(run.boxes.length, "box of the probe", "boxes of the probe"));
  if (run.turns.size) facts.push(countText(run.turns.size, "turn of the head", "turns of the head"));
  if (run.notices.length) facts.push(countText(run.notices.length, "notice", "notices"));
  return facts.join(" \u00b7 ") + (run.from ? ` \u00b7 shown: the last ${run.length.toLocaleString("en")} steps` : "");
}

// The word of a step's statement, but of one that carries what is known.
const wordAt = (run, k) => (run.done[k] === CARRIED ? "" : run.code[run.statement[k]].word);

// What a step did, for a reader.
function doneText(run, k) {
  if (k === 0) return run.from ? "the steps before this are not in this page" : "the start";
  if (run.untried && run.untried.steps.has(k)) return run.untried.steps.get(k);
  const said = run.done[k], next = /(?:^| )next (\d+)$/.exec(said);
  const where = next && run.code[Number(next[1])] ? "on to line " + run.code[Number(next[1])].line : "";
  if (said === CARRIED) return CARRIED;
  if (said === "moved") return "to " + positionAt(run, k).map(millimetres).join(" ");
  if (said.startsWith("stop ")) return said;
  if (said.startsWith("FA(")) return said.replace(/^FA\((\w+)\) /, "$1 touched at ");
  if (/^output /.test(said)) return run.output.at(k);
  if (/^F\(/.test(said)) return "declares " + said;
  if (/^D\(/.test(said)) return frameText(run.frame.at(k));
  if (said.includes("=")) return said.split(" ")[0].replace("=", " = ") + (where ? ", " + where : "") + turnText(run, k);
  return where;
}

// What of a probe is changed in a step, behind the value that chooses it.
function turnText(run, k) {
  const turn = turnIn(run, k), now = probeAt(run, k);
  if (turn) return `; ${turn.before.name} is changed for ${turn.now.name}, the tip is put at ${turn.to.map(millimetres).join(" ")}`;
  return now && now !== probeAt(run, k - 1) ? `; ${now.name} is on` : "";
}

// Whether two frames are the same: their origin and their axes.
const isSameFrame = (one, other) => one.origin.join() === other.origin.join() && one.axes.join() === other.axes.join();

// How far a point that a step measured lies from its nominal one along its direction, in micrometres; null where its FEAT isn't known to have been carried out in the frame of the measurement.
function deviationOf(run, name, step) {
  const nominal = run.nominal.get(name), actual = run.actual.get(name), declared = nominal ? nominal.setAt(step) : null;
  const n = nominal && nominal.at(step), a = actual && actual.at(step);
  if (!n || !a || declared === null || !isSameFrame(run.frame.at(declared), run.frame.at(step))) return null;
  return [0, 1, 2].reduce((sum, k) => sum + (micrometres(a[k]) - micrometres(n[k])) * Number(a[3 + k]), 0);
}
