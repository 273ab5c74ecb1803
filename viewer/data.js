"use strict";
// The data block of a page, read: what stood at the start, the steps, and what each of them changed. Every value that changes in a run is a
// list of the steps that changed it, so the state behind any step is found by bisection, forwards and back alike.

const bytesOfText = new TextDecoder("utf-8");

// A text as it is shown: % and two digits is a byte; control and direction characters are made visible.
function shownText(text) {
  if (text.includes("%")) {
    const bytes = [];
    for (let i = 0; i < text.length; i++) {
      if (text[i] === "%") {
        bytes.push(parseInt(text.substr(i + 1, 2), 16));
        i += 2;
      } else bytes.push(text.charCodeAt(i));
    }
    text = bytesOfText.decode(Uint8Array.from(bytes));
  }
  return text
    .replace(/[\u0000-\u0008\u000b-\u001f]/g, (c) => String.fromCharCode(0x2400 + c.charCodeAt(0)))
    .replace(/[\u007f-\u009f\u061c\u200b-\u200f\u2028-\u202e\u2060-\u2069\ufeff]/g, (c) => "[U+" + c.charCodeAt(0).toString(16).toUpperCase().padStart(4, "0") + "]");
}

// Values that a step sets, in the order of steps.
class Changes {
  constructor(first) {
    this.steps = [];
    this.values = [];
    this.first = first;
  }
  add(step, value) {
    this.steps.push(step);
    this.values.push(value);
  }
  // how many of them are at or before a step
  count(step) {
    let low = 0, high = this.steps.length;
    while (low < high) {
      const middle = (low + high) >> 1;
      if (this.steps[middle] <= step) low = middle + 1; else high = middle;
    }
    return low;
  }
  at(step) {
    const n = this.count(step);
    return n ? this.values[n - 1] : this.first;
  }
  // the step that set the value, or null where it is from the start
  setAt(step) {
    const n = this.count(step);
    return n ? this.steps[n - 1] : null;
  }
}

// A list of numbers that grows.
class Numbers {
  constructor(kind) {
    this.all = new kind(1024);
    this.length = 0;
  }
  push(x) {
    if (this.length === this.all.length) {
      const more = new this.all.constructor(2 * this.length);
      more.set(this.all);
      this.all = more;
    }
    this.all[this.length++] = x;
  }
  done() {
    return this.all.subarray(0, this.length);
  }
}

const micrometres = (text) => Number(text.replace(".", ""));
// a whole number of micrometres as millimetres, by its digits: an aim may be longer than a number of a script holds
function millimetresOf(text) {
  const digits = text.replace("-", "").padStart(4, "0");
  return (text[0] === "-" ? "-" : "") + digits.slice(0, -3) + "." + digits.slice(-3);
}
// A frame of its name, which that of the first shown state has not, the point of its origin and the machine axes of its own.
function frameOf(name, words) {
  return { name, origin: words.slice(0, 3).map(Number), axes: words.slice(3, 6) };
}

// Whether a variable or a frame is one that no text names: it carries what is known of a whole program.
const isCarried = (name) => Number(name.split("#")[1] || 0) > 2147483647 || /^(0|_{16}$)/.test(name);

// Whether part coordinates are the machine's.
const isMachine = (frame) => frame.origin.every((x) => x === 0) && frame.axes.join() === "+X,+Y,+Z";

// What is told of a step that sets a variable which no text names.
const CARRIED = "carries what is known";

// The run of a data block.
function readRun(text) {
  const run = {
    low: null, high: null, home: null, tip: 0, blocks: [], names: new Map(), lines: [], code: [], notices: [], from: 0, listed: null, aims: new Map(),
    variables: new Map(), settings: new Map(), nominal: new Map(), actual: new Map(), frame: new Changes(null),
    output: new Changes(null), touches: [], contact: null, stop: null, open: null, counts: new Map(), boxes: [], probes: null, turns: new Map(), metSteps: new Map(), beyond: [], lost: null, untried: null, adapted: null, why: null,
  };
  const statement = new Numbers(Uint32Array), line = new Numbers(Uint32Array), position = new Numbers(Float64Array);
  const done = [""], pieceFrom = new Numbers(Uint32Array);
  const ends = new Numbers(Float64Array), kinds = [], pieceStep = new Numbers(Uint32Array);
  let step = 0, last = null, before = null, word = "";
  const piece = (kind, to) => {
    for (const x of last) ends.push(x);
    for (const x of to) ends.push(x);
    kinds.push(kind);
    pieceStep.push(step);
    last = to;
  };
  const rows = text.split("\n");
  if (rows[0] !== "" || rows[1] !== "vcm-view 1") throw new Error("the data is not of this version");
  for (let i = 2; i < rows.length; i++) {
    const row = rows[i];
    const key = row.charCodeAt(0);
    if (key >= 48 && key <= 57) {
      const fields = row.split(",");
      const at = [micrometres(fields[4]), micrometres(fields[5]), micrometres(fields[6])];
      if (fields[7].startsWith("no stop after")) {
        run.open = { statement: Number(fields[1]), line: Number(fields[2]), text: fields[7] };
        continue;
      }
      step++;
      word = fields[3];
      statement.push(Number(fields[1]));
      line.push(Number(fields[2]));
      for (const x of at) position.push(x);
      done.push(fields[7]);
      pieceFrom.push(kinds.length);
      last = before;
      before = at;
      const said = fields[7];
      if (said === "moved") piece("m", at);
      else if (said.startsWith("stop ")) run.stop = { step, text: said };
      else if (said.includes("=")) {
        const [name, value] = said.split(" ")[0].split("=");
        const map = word === "SNSET" ? run.settings : run.variables;
        if (map.has(name)) map.get(name).changes.add(step, value); else done[step] = CARRIED;
      }
      continue;
    }
    if (row === "") continue;
    const rest = row.slice(2);
    const words = rest.split(" ");
    switch (row[0]) {
      case "P": run.low = words.slice(0, 3).map(Number); run.high = words.slice(3, 6).map(Number); break;
      case "H": run.home = words.map(Number); break;
      case "T": run.tip = Number(rest); break;
      case "B": run.blocks.push(words.map(Number)); break;
      case "L": run.lines.push(shownText(rest).replace(/\u240d$/, "")); break;
      case "I": run.listed = Number(rest); break;
      case "C": run.code.push({ line: Number(words[0]), word: words[1] }); break;
      case "V": if (!isCarried(words[0])) run.variables.set(words[0], { kind: words[1], changes: new Changes(words[2]) }); break;
      case "S": run.settings.set(words[0], { changes: new Changes(words[1]) }); break;
      case "N": run.notices.push({ line: Number(words[0]), word: words[1] }); break;
      case "D": run.frame.first = frameOf(null, words); break;
      case "F": case "f": {
        const found = /^(FA?)\((\w+)\)=FEAT\/POINT,CART,(.*)$/.exec(rest);
        const map = found[1] === "F" ? run.nominal : run.actual;
        const value = found[3].split(",");
        if (!map.has(found[2])) map.set(found[2], new Changes(null));
        if (row[0] === "F") map.get(found[2]).first = value; else map.get(found[2]).add(step, value);
        break;
      }
      case "K": run.from = Number(words[0]); before = words.slice(1, 4).map(Number); for (const x of before) position.push(x); statement.push(0); line.push(0); pieceFrom.push(0); break;
      case "m": case "a": case "s": case "r": case "x":
        if (words.length > 3) run.aims.set(kinds.length, words.slice(3).map(millimetresOf));
        piece(row[0], words.slice(0, 3).map(Number));
        break;
      case "t": run.touches.push({ step, at: words.slice(0, 3).map(Number), name: words[3] }); break;
      case "c": run.contact = { step, at: words.slice(0, 3).map(Number), block: Number(words[3]) }; break;
      case "d": run.frame.add(step, frameOf(isCarried(words[0]) ? null : words[0], words.slice(1))); break;
      case "o": run.output.add(step, shownText(rest)); break;
      default: throw new Error("row " + (i + 1) + " of the data has an unknown key");
    }
  }
  run.length = step;
  run.statement = statement.done();
  run.line = line.done();
  run.position = position.done();
  run.done = done;
  pieceFrom.push(kinds.length);
  run.pieceFrom = pieceFrom.done();
  run.kinds = kinds;
  run.ends = ends.done();
  run.pieceStep = pieceStep.done();
  run.touchSteps = new Changes(null);
  for (const touch of run.touches) run.touchSteps.add(touch.step, touch);
  countSteps(run, () => true);
  const title = run.lines.map((it) => /^\s*DMISMN\s*\/\s*'([^']*)'/i.exec(it)).find((it) => it);
  run.title = title ? title[1] : "Run of an image";
  return run;
}

// For each line the steps at which it is carried out.
function countSteps(run, isOne) {
  run.counts.clear();
  for (let k = 1; k <= run.length; k++) {
    const row = rowAt(run, k), list = run.counts.get(row);
    if (!isOne(k)) continue;
    if (list) list.push(k); else run.counts.set(row, [k]);
  }
}

// What is known of the machine behind a step: the frame, the mode, the table and the place of the probe.
const knownThings = ["Frame", "Mode", "Table", "Place"];

// What of a whole program wasn't tried, from lines `W WORDS` of the head, `U LINE COUNT WORDS`, `M STEP NUMBER` with the number of such a line, `E STEP` of a way that
// begins elsewhere, and `Y STEP FRAME MODE TABLE PLACE` where something else is known. A line of the text is put as several statements: it is carried out once
// however many of them are. The end of what it is put as may stand behind other lines.
function readUntried(run, text) {
  const found = (run.untried = { told: [], lines: new Map(), steps: new Map(), known: new Changes([true, true, true, true]) }), rows = [];
  for (const row of text.split("\n")) {
    const words = row.split(" "), step = Number(words[1]) - run.from;
    if (row[0] === "W") found.told.push(shownText(row.slice(2)));
    else if (row[0] === "U") {
      const line = Number(words[1]), it = { count: Number(words[2]), text: shownText(words.slice(3).join(" ")) };
      rows.push(it);
      found.lines.set(line, [...(found.lines.get(line) || []), it]);
    } else if (row[0] === "M") found.steps.set(step, rows[Number(words[2])].text);
    else if (row[0] === "E" && step > 0) beginElsewhere(run, step);
    else if (row[0] === "Y") {
      const known = words.slice(2).map((it) => it === "1");
      if (step > 0) found.known.add(step, known); else found.known.first = known;
    }
  }
  const words = new Map();
  for (let i = run.code.length - 1; i >= 0; i--) words.set(rowOf(run, i), run.code[i].word);
  const isEnd = (k) => /^(ELSE|END(IF|DO|CAS|SEL))$/.test(run.code[run.statement[k]].word) && run.code[run.statement[k]].word !== words.get(rowAt(run, k));
  countSteps(run, (k) => (k === 1 || rowAt(run, k) !== rowAt(run, k - 1) || run.statement[k] <= run.statement[k - 1]) && !isEnd(k));
}

// Whether a text is one that `vcm adapt` wrote: behind `$$- ` stands what the producer's text had in a line. How many such lines there are, and on which of them a statement is left out that
// moves the probe, or leads to one that may.
const MOVING = /^\s*\$\$- (.*=\s*)?(GOTO|GOHOME|PTMEAS|PAMEAS|RMEAS|ROTAB|ROTATE|CALL|EXTFIL|SNSLCT)\b/i;
function readAdapted(run) {
  const count = run.lines.filter((it) => it.includes("$$- ")).length;
  if (run.untried === null && count) run.adapted = { count, lines: run.lines.flatMap((it, i) => (MOVING.test(it) ? [i + 1] : [])) };
}

// The first piece of a step begins elsewhere.
function beginElsewhere(run, step) {
  const i = run.pieceFrom[step];
  if (i < run.pieceFrom[step + 1] && run.kinds[i] !== "x") run.kinds[i] = "e";
}

// The names of blocks, from lines `K NUMBER NAME`.
function readNames(run, text) {
  for (const row of text.split("\n")) {
    const words = row.split(" ");
    if (words[0] === "K") run.names.set(Number(words[1]), shownText(words.slice(2).join(" ")));
  }
}

// ---- what is asked of a run

// a block by its number, and its name where it has one
const blockText = (run, number) => "block " + number + (run.names.has(number) ? ` "${run.names.get(number)}"` : "");

// the line of the shown text that a statement stands on: of a program its source line, of a listing its own
const rowOf = (run, statement) => run.listed === null ? (run.code[statement] ? run.code[statement].line : 0) : run.listed + statement + 1;
const rowAt = (run, k) => rowOf(run, run.statement[k]);

const positionAt = (run, k) => [run.position[3 * k], run.position[3 * k + 1], run.position[3 * k + 2]];

// the statement that is next behind a step, or null behind the last one
function nextAt(run, k) {
  if (k < run.length) return { statement: run.statement[k + 1], line: run.line[k + 1] };
  return run.open;
}

// a machine point in the coordinates of a frame
function inFrame(frame, at) {
  return frame.axes.map((axis) => {
    const k = "XYZ".indexOf(axis[1]);
    const x = at[k] - frame.origin[k];
    return axis[0] === "-" ? 0 - x : x;
  });
}

// micrometres as millimetres with three decimals
function millimetres(x) {
  const size = Math.abs(x);
  return (x < 0 ? "-" : "") + Math.floor(size / 1000) + "." + String(size % 1000).padStart(3, "0");
}

// steps that move the probe or print
function isEvent(run, k) {
  return run.pieceFrom[k + 1] > run.pieceFrom[k] || turnIn(run, k) !== undefined || /^(output|stop) /.test(run.done[k]);
}
