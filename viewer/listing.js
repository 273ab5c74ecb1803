// The text of the program: a hundred lines in one piece, plain where they are out of view, and with their signs and counts where they are in view.

const LINES_OF_PIECE = 100;

class Listing {
  constructor(run, box) {
    this.run = run;
    this.box = box;
    this.stopLine = stopLineOf(run);
    this.stated = new Set(run.code.map((_, i) => rowOf(run, i)));
    this.noticed = new Map(run.notices.map((it) => [it.line, it.word]));
    // lines of which something wasn't tried, each with what
    this.untried = new Map([...(run.untried ? run.untried.lines : [])].map(([line, all]) => [line, all.map((it) => it.text + (it.count > 1 ? `, ${it.count} times` : "")).join("; ")]));
    for (const line of run.adapted ? run.adapted.lines : []) this.untried.set(line, "left out by vcm adapt: not tried");
    this.touching = new Set(run.touches.map((it) => rowAt(run, it.step)));
    // lines in which a box of the probe meets a block, each with what it meets
    this.meeting = new Map(run.boxes.flatMap((own) => own.contacts.filter((it) => it.step > 0).map((it) => [rowAt(run, it.step), metText(run, own, it)])).reverse());
    this.rows = new Map();
    this.pointed = 0;
    this.marked = [];
    this.pieces = [];
    const longest = run.lines.reduce((most, it) => Math.max(most, it.length), 0), all = document.createDocumentFragment();
    for (let from = 0; from < run.lines.length; from += LINES_OF_PIECE) {
      const piece = element("div", undefined, "piece"), lines = Math.min(LINES_OF_PIECE, run.lines.length - from);
      piece.style.setProperty("--lines", lines);
      piece.style.setProperty("--longest", Math.min(longest, 2000) + 30);
      piece.dataset.from = from;
      this.pieces.push(piece);
      all.append(piece);
      this.plain(piece);
    }
    box.append(all);
    this.inView = new Set();
    this.watch = new IntersectionObserver((seen) => { for (const it of seen) this.seen(it.target, it.isIntersecting); }, { root: box, rootMargin: "400px" });
    for (const it of this.pieces) this.watch.observe(it);
  }
  seen(piece, isInView) {
    if (isInView) {
      this.inView.add(piece);
      this.full(piece);
    } else {
      this.inView.delete(piece);
      this.plain(piece);
    }
  }
  linesOf(piece) {
    const from = Number(piece.dataset.from);
    return [from, Math.min(from + LINES_OF_PIECE, this.run.lines.length)];
  }
  // A piece as a text alone; the one with a line that is marked stays.
  plain(piece) {
    const [from, to] = this.linesOf(piece);
    if (piece.dataset.is === "plain" || this.marked.some((it) => it.parentElement === piece)) return;
    for (let i = from; i < to; i++) this.rows.delete(i + 1);
    piece.dataset.is = "plain";
    piece.replaceChildren(element("pre", this.run.lines.slice(from, to).join("\n"), "plain"));
  }
  full(piece) {
    if (piece.dataset.is === "full") return;
    const [from, to] = this.linesOf(piece), rows = [];
    for (let i = from; i < to; i++) {
      const row = this.row(i + 1);
      this.rows.set(i + 1, row);
      rows.push(row);
    }
    piece.dataset.is = "full";
    piece.replaceChildren(...rows);
  }
  row(n) {
    const { run } = this, row = element("div", undefined, "line"), times = run.counts.get(n), isStop = n === this.stopLine || this.meeting.has(n);
    row.dataset.line = n;
    if (n === this.pointed) row.classList.add("pointed");
    const [text, kind, title] = isStop ? ["\u2715", " stop", n === this.stopLine ? run.stop.text : this.meeting.get(n)] : this.untried.has(n) ? ["?", " untried", this.untried.get(n)] : this.touching.has(n) ? ["\u25cf", " touch", "measures"] : this.noticed.has(n) ? ["!", " notice", this.noticed.get(n) + " has no effect"] : ["", "", ""];
    const sign = element("span", text, "sign" + kind);
    if (title) sign.title = title;
    if (times) row.classList.add("ran");
    else if (this.stated.has(n)) {
      row.classList.add("idle");
      row.title = "not carried out in this run";
    }
    if (this.untried.has(n)) row.classList.add("untried");
    row.append(element("span", String(n), "number"), sign, this.coloured(run.lines[n - 1]));
    if (times && times.length > 1) {
      const count = element("span", "\u00d7" + times.length.toLocaleString("en"), "times");
      count.title = "carried out " + times.length + " times";
      row.append(count);
    }
    row.append(element("span", "", "done"));
    return row;
  }
  coloured(text) {
    const row = element("code");
    if (/^\s*\$\$/.test(text)) {
      row.append(element("i", text));
      return row;
    }
    for (const piece of text.split(/('[^']*')/)) row.append(piece[0] === "'" ? element("q", piece) : piece);
    return row;
  }
  rowOfLine(n) {
    const piece = this.pieces[Math.floor((n - 1) / LINES_OF_PIECE)];
    if (!piece || n < 1) return undefined;
    this.full(piece);
    return this.rows.get(n);
  }
  // Marks the line of a step, and that of the next one.
  show(k) {
    const { run } = this, next = nextAt(run, k), line = k ? rowAt(run, k) : 0, after = next ? rowOf(run, next.statement) : 0;
    this.unpoint();
    const before = new Set(this.marked.map((it) => it.parentElement));
    for (const row of this.marked) {
      row.classList.remove("now", "next", "bad");
      row.removeAttribute("aria-current");
      setText(row.lastChild, "");
    }
    this.marked = [];
    const now = line ? this.rowOfLine(line) : undefined, then = after && after !== line ? this.rowOfLine(after) : undefined;
    if (then) {
      then.classList.add("next");
      this.marked.push(then);
    }
    if (now) {
      const met = contactsIn(run, k);
      now.classList.add("now");
      if ((run.stop && k === run.stop.step && this.stopLine) || met.length) now.classList.add("bad");
      now.setAttribute("aria-current", "step");
      now.lastChild.textContent = met.map(({ box, contact }) => metText(run, box, contact) + ", then ").join("") + doneText(run, k).replace(/^stop (.*?)( at \d+ line \d+)?$/, "$1").replace(/ permille \d+$/, "");
      this.marked.push(now);
    }
    for (const piece of before) if (piece && !this.inView.has(piece)) this.plain(piece);
    if (now || then) this.intoView(now ? line : after);
  }
  // Shows a line that is asked for, until the next step.
  point(n) {
    const row = this.rowOfLine(n);
    this.unpoint();
    if (!row) return;
    this.pointed = n;
    row.classList.add("pointed");
    this.intoView(n);
  }
  unpoint() {
    const row = this.rows.get(this.pointed);
    if (row) row.classList.remove("pointed");
    this.pointed = 0;
  }
  // Lines are equally high, so where one stands is known without asking for it.
  intoView(n) {
    const high = this.box.clientHeight, top = 6 + 20.5 * (n - 1);
    if (high === 0) return;
    const at = this.box.scrollTop;
    if (top - at < 24 || top - at > high - 60) this.box.scrollTop = top - high / 2.4;
  }
  // On paper stand all lines.
  forPaper(is) {
    for (const it of this.pieces) if (is) this.full(it); else if (!this.inView.has(it)) this.plain(it);
  }
}
