// A text that is edited: a text area, and below it what is drawn of the lines that are in view: their numbers, colours, marks and messages.

const LINE_HEIGHT = 20;
const signs = { bad: "\u2715", skipped: "?", notice: "!", now: "" };
// The most characters of a line that are drawn.
const MOST_DRAWN = 20000;

function element(tag, text, className) {
  const it = document.createElement(tag);
  if (text !== undefined) it.textContent = text;
  if (className) it.className = className;
  return it;
}

class Editor {
  constructor(id, name, language) {
    this.area = document.getElementById(id);
    this.box = this.area.closest(".code");
    this.layer = this.box.querySelector(".lines");
    this.language = language;
    this.marks = new Map();
    this.found = { lines: new Map(), all: [], at: -1 };
    this.area.addEventListener("scroll", () => this.draw());
    this.area.addEventListener("input", () => this.changed());
    new ResizeObserver(() => this.draw()).observe(this.area);
    this.take("", name);
  }
  get text() {
    return this.area.value;
  }
  // Whether the text is another one than that which was opened or saved.
  get isChanged() {
    return this.area.value !== this.kept;
  }
  // Another text, with the name of its file. Its lines are saved with the ends that they had.
  take(text, name) {
    this.area.value = text;
    this.end = /\r\n/.test(text) ? "\r\n" : "\n";
    this.name = name;
    this.marks.clear();
    this.area.scrollTo(0, 0);
    this.saved();
  }
  // A text in place of this one, as if it had been typed, so that it can be undone.
  replace(text) {
    this.area.focus();
    this.area.select();
    document.execCommand("insertText", false, text);
  }
  saved() {
    this.kept = this.area.value;
    this.changed();
  }
  changed() {
    this.lines = this.area.value.split("\n");
    if (this.found.all.length) this.find(this.wanted);
    if (this.whenNamed) this.whenNamed();
    this.draw();
  }

  // ---- what is drawn

  draw() {
    if (this.waits) return;
    this.waits = requestAnimationFrame(() => {
      this.waits = 0;
      this.drawNow();
    });
  }
  drawNow() {
    const { scrollTop, scrollLeft, clientHeight } = this.area;
    if (clientHeight === 0) return;
    const from = Math.max(0, Math.floor((scrollTop - 6) / LINE_HEIGHT)), to = Math.min(this.lines.length, Math.ceil((scrollTop + clientHeight) / LINE_HEIGHT) + 1), rows = [];
    for (let i = from; i < to; i++) rows.push(this.row(i + 1, 6 + LINE_HEIGHT * i - scrollTop, scrollLeft));
    this.layer.replaceChildren(...rows);
  }
  row(line, top, left) {
    const row = element("div", undefined, "row"), sign = element("i"), text = element("span"), ranges = this.found.lines.get(line) || [], whole = this.lines[line - 1].slice(0, MOST_DRAWN);
    row.style.top = top + "px";
    let message = "";
    for (const [kind, marked] of this.marks) {
      const mark = marked.get(line);
      if (mark === undefined) continue;
      row.classList.add(kind);
      sign.textContent = signs[kind] || sign.textContent;
      message = mark.message || message;
      if (mark.word) ranges.push({ ...this.placeOf(whole, mark.word), name: "wrong" });
    }
    for (const [name, piece] of cut(colouredLine(whole, this.language), ranges)) text.append(name ? element("span", piece, name) : piece);
    if (message) text.append(element("em", message));
    text.style.transform = `translateX(${-left}px)`;
    const clip = element("div");
    clip.append(text);
    row.append(sign, element("s", String(line)), clip);
    return row;
  }
  // Where a word, or a whole statement, stands in a line; of a statement that goes on in other lines all of this one.
  placeOf(line, word) {
    const at = line.indexOf(word);
    return at < 0 ? { from: line.length - line.trimStart().length, to: line.trimEnd().length } : { from: at, to: at + word.length };
  }
  // Marks lines in place of those of this kind: each with a word that is underlined, and a message behind the line, where it has these.
  mark(kind, marks) {
    this.marks.delete(kind);
    this.marks.set(kind, new Map(marks.map((it) => [it.line, it])));
    // what weighs more is drawn over what weighs less
    this.marks = new Map(["now", "notice", "skipped", "bad"].filter((it) => this.marks.has(it)).map((it) => [it, this.marks.get(it)]));
    this.draw();
  }
  linesOf(kind) {
    return [...(this.marks.get(kind) || new Map()).keys()];
  }

  // ---- going to lines, and finding

  // Shows a line, unless it is in view.
  show(line) {
    const at = LINE_HEIGHT * (line - 1), { scrollTop, clientHeight } = this.area;
    if (at < scrollTop || at > scrollTop + clientHeight - 2 * LINE_HEIGHT) this.area.scrollTop = at - clientHeight / 2;
  }
  startOf(line) {
    return this.lines.slice(0, line - 1).reduce((sum, it) => sum + it.length + 1, 0);
  }
  // Goes to a line: the cursor stands in it, and it is selected.
  goTo(line) {
    const from = this.startOf(line);
    this.area.focus();
    this.area.setSelectionRange(from, from + (this.lines[line - 1] || "").length);
    this.area.scrollLeft = 0;
    this.show(line);
  }
  // Finds a text, small letters and capitals alike; answers how many there are.
  find(wanted) {
    const lines = new Map(), all = [], small = wanted.toLowerCase();
    this.wanted = wanted;
    if (small) {
      this.lines.forEach((text, i) => {
        const line = text.toLowerCase();
        for (let at = line.indexOf(small); at >= 0 && all.length < 100000; at = line.indexOf(small, at + small.length)) all.push({ line: i + 1, from: at, to: at + small.length, name: "found" });
      });
    }
    for (const it of all) lines.set(it.line, [...(lines.get(it.line) || []), it]);
    this.found = { lines, all, at: -1 };
    this.draw();
    return all.length;
  }
  // The next one that is found behind the cursor, or the one before it; answers its number.
  findNext(by) {
    const { all } = this.found;
    if (all.length === 0) return 0;
    if (this.found.at < 0) {
      const line = this.area.value.slice(0, this.area.selectionStart).split("\n").length, behind = all.findIndex((it) => it.line >= line);
      this.found.at = by > 0 ? Math.max(behind, 0) : (behind < 0 ? all.length : behind) - 1;
    } else this.found.at += by;
    this.found.at = (this.found.at + all.length) % all.length;
    for (const it of all) it.name = "found";
    const it = all[this.found.at], from = this.startOf(it.line) + it.from;
    it.name = "found this";
    this.area.setSelectionRange(from, from + it.to - it.from);
    this.show(it.line);
    this.draw();
    return this.found.at + 1;
  }
}

// The bar that finds in the text that is shown.
class Finder {
  constructor(editorNow) {
    this.now = editorNow;
    this.form = document.getElementById("find");
    this.input = document.getElementById("find-text");
    this.count = document.getElementById("find-count");
    this.input.oninput = () => this.look();
    this.form.onsubmit = (event) => {
      event.preventDefault();
      this.next(1);
    };
    this.form.onkeydown = (event) => {
      if (event.key === "Escape") this.close();
      else if (event.key === "Enter" && event.shiftKey) this.next(-1);
      else return;
      event.preventDefault();
    };
    document.getElementById("find-back").onclick = () => this.next(-1);
    document.getElementById("find-close").onclick = () => this.close();
    document.getElementById("find-open").onclick = () => this.open();
  }
  open() {
    const { area } = this.now(), selected = area.value.slice(area.selectionStart, area.selectionEnd);
    this.form.hidden = false;
    if (selected && !selected.includes("\n")) this.input.value = selected;
    this.input.focus();
    this.input.select();
    this.look();
  }
  look() {
    const count = this.now().find(this.input.value);
    this.count.textContent = this.input.value === "" ? "" : count === 0 ? "none" : String(count);
    if (count) this.next(1);
  }
  next(by) {
    const number = this.now().findNext(by);
    if (number) this.count.textContent = `${number} of ${this.now().found.all.length}`;
  }
  close() {
    this.form.hidden = true;
    this.now().find("");
    this.now().area.focus();
  }
}
