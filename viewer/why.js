// Why the run stops: the lines of `vcm why`, as the first card of the state. Lines of the text are links.

// The card, from the text of `vcm why`: lines of the program with what stands there, where a way is free, and what else is told. Where the run has no stop before its end there is no card.
function readWhy(run, text) {
  const rows = text.split("\n").map(shownText).filter((it) => it !== "");
  if (!rows.length || !rows[0].startsWith("stop ") || rows[0].startsWith("stop ENDED")) return;
  const why = (run.why = { lines: [], free: "", others: [] });
  for (const row of rows.slice(1)) {
    let it;
    if ((it = /^line (\d+): (.*)$/.exec(row))) why.lines.push({ line: Number(it[1]), text: "", code: it[2] });
    else if ((it = /^in (M\(\w+\)) from line (\d+): (.*)$/.exec(row))) why.lines.push({ line: Number(it[2]), text: `in ${it[1]} by `, code: it[3], call: it[1] });
    else if ((it = /^round (\d+) of DO line (\d+), (.*)$/.exec(row))) why.lines.push({ line: Number(it[2]), text: `round ${it[1]} of DO, `, code: it[3] });
    else if (row.startsWith("free ")) why.free = row.slice(5).replace(/\b[xyz](?= -?\d)/g, (c) => c.toUpperCase());
    // the way, the contact and the block's name stand in the table of places below
    else if (!/^(way |contact of |block \d+ is )/.test(row)) why.others.push(row);
  }
}

class WhyCard {
  constructor(run, whenLine) {
    this.run = run;
    this.card = $("why-card");
    this.whenLine = whenLine;
    this.card.hidden = run.why === null;
    if (run.why === null) return;
    const { lines, free, others } = run.why, block = run.contact ? `${blockText(run, run.contact.block)} ` : "";
    $("why-lines").replaceChildren(...lines.map((it) => {
      const item = element("li"), told = element("span", it.text);
      told.append(element("code", it.code));
      item.append(this.link(it.line), told);
      return item;
    }));
    $("why-free").hidden = free === "";
    $("why-free").textContent = "Free " + free.replace("it ", block || "it ");
    $("why-others").replaceChildren(...others.map((it) => this.linked(it)));
  }
  link(line) {
    const it = element("button", "line " + line, "jump");
    it.type = "button";
    it.onclick = () => this.whenLine(line);
    return it;
  }
  // A text of which `line N` is a link.
  linked(text) {
    const item = element("p");
    for (const piece of text.split(/(\bline \d+\b)/)) item.append(/^line \d+$/.test(piece) ? this.link(Number(piece.slice(5))) : piece);
    return item;
  }
  // At the stop all of it, elsewhere a line that leads there.
  show(k) {
    if (this.run.why === null || !this.run.stop) return;
    const { run } = this, isHere = k === run.stop.step;
    setClass(this.card, isHere ? "why" : "why away");
    setText($("why-title"), isHere ? "Why it stops here" : "Why it stops");
    $("why-to").hidden = isHere;
    $("why-to").dataset.step = run.stop.step;
    setText($("why-to"), "at step " + (run.stop.step + run.from).toLocaleString("en"));
  }
}
