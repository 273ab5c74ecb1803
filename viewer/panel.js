// The state behind a step: what the step did, where the probe is, variables, measured points, boxes, output and settings. Only what changes is made anew.

class Panel {
  // `whenLine` is called with a line of the text that is asked for.
  constructor(run, whenLine) {
    this.run = run;
    this.why = new WhyCard(run, whenLine);
    this.ending = endingOf(run);
    this.stopLine = stopLineOf(run);
    this.names = [...run.variables.keys()];
    this.variables = new Rows($("variables-list"), $("variables"), "tbody", 24, (i) => this.variableRow(this.names[i]), (row, i, k) => this.updateVariable(row, this.names[i], k));
    this.points = new Rows($("points-list"), $("points"), "tbody", 38, (i) => this.pointRow(run.touches[i]), (row, i, k) => setClass(row, run.touches[i].step === k ? "changed" : ""));
    this.output = new Rows($("output"), $("output"), "ol", 38, (i) => this.outputRow(i), (row, i, k) => setClass(row, run.output.steps[i] === k ? "changed" : ""));
    this.settings = [...run.settings].map(([name, it]) => {
      const value = element("dd", "", "mono");
      $("settings").append(element("dt", name), value);
      return { it, value };
    });
    this.told = this.boxRows();
    this.boxes = new Rows($("boxes-list"), $("boxes"), "tbody", 26, (i) => this.boxRow(this.told[i]), (row, i, k) => setClass(row, this.told[i].contact && this.told[i].contact.step === k && k ? "changed" : ""));
    for (const [id, has] of [["variables-section", run.variables.size], ["points-section", run.touches.length], ["boxes-section", this.told.length], ["output-section", run.output.steps.length], ["notices-section", run.notices.length]]) $(id).hidden = has === 0;
    $("variables-filter").hidden = run.variables.size <= 20;
    for (const it of run.notices.slice(0, 200)) $("notices").append(element("li", `line ${it.line}: ${it.word} has no effect`));
  }
  jump(step, text) {
    const it = element("button", text || String(step + this.run.from), "jump");
    it.type = "button";
    it.dataset.step = step;
    it.title = "to step " + (step + this.run.from);
    return it;
  }

  show(k) {
    this.why.show(k);
    this.showStep(k);
    this.showProbe(k);
    this.showVariables(k);
    this.showPoints(k);
    this.boxes.show(this.told.length, k);
    this.showOutput(k);
    for (const { it, value } of this.settings) {
      setText(value, it.changes.at(k) + " mm");
      setClass(value, "mono" + (it.changes.setAt(k) === k && k ? " changed" : ""));
    }
  }
  showStep(k) {
    const { run } = this, stops = k > 0 && run.stop !== null && k === run.stop.step, fails = stops && this.stopLine > 0;
    const met = contactsIn(run, k).map(({ box, contact }) => `${metText(run, box, contact)} at ${contact.at.map(millimetres).join(" ")}, in its ${contact.kind.toLowerCase()}`);
    for (const it of run.beyond) if (it.step === k && k) met.push(`the pivot goes beyond its limits, at ${it.at.map(millimetres).join(" ")}`);
    const untried = run.untried && run.untried.steps.has(k);
    const ended = fails ? this.ending.text + ". The probe stays where it was." : stops ? "the run has come to its end" + (isPartly(run) ? "; not all of it was tried" : run.adapted ? "; not all of the producer's text stands in it" : "") : doneText(run, k);
    setText($("step-title"), k === 0 ? (run.from ? "Behind step " + run.from : "Start") : "Step " + (k + run.from) + " \u00b7 line " + run.line[k] + (wordAt(run, k) ? " \u00b7 " + wordAt(run, k) : ""));
    setText($("step-done"), [...met, ...(met.length && ended ? ["then " + ended] : [ended])].join("; "));
    setText($("step-line"), fails ? run.done[k] : "");
    setClass($("step-done"), "done" + (fails || met.length ? " bad" : untried || (stops && (isPartly(run) || run.adapted)) ? " warn" : stops && !run.firstMet ? " ok" : ""));
  }
  showProbe(k) {
    const { run } = this, at = positionAt(run, k), frame = run.frame.at(k), next = nextAt(run, k), places = [["Machine", at]], entries = [], add = (name, value) => entries.push(element("dt", name), typeof value === "string" ? element("dd", value) : value);
    if (!isMachine(frame)) {
      const set = run.frame.setAt(k), value = element("dd", frame.name ? frame.name + " " : "from before the first step shown");
      places.push(["Part", inFrame(frame, at)], ["Origin", frame.origin]);
      if (set !== null) value.append(this.jump(set, "set at step " + (set + run.from)));
      add("Frame", value);
      if (frame.axes.join() !== "+X,+Y,+Z") add("Axes", "X along " + frame.axes[0] + ", Y " + frame.axes[1] + ", Z " + frame.axes[2]);
    }
    const probe = probeAt(run, k), turn = turnIn(run, k);
    if (run.probes) add("Probe", probe ? `${probe.name}, number ${probe.number}, ${tipText(run, k)}` : "none is on yet");
    if (turn) places.push(["From", turn.from], ["Pivot", turn.pivot], ["To", turn.to]);
    if (run.contact !== null && run.contact.step === k) places.push(["Contact", run.contact.at, "bad"]);
    for (const { box, contact } of contactsIn(run, k)) places.push([box.isSwing ? "Pivot" : box.short, contact.at, "bad"]);
    for (let i = k ? run.pieceFrom[k] : 0; i < (k ? run.pieceFrom[k + 1] : 0); i++) if (run.kinds[i] === "x") places.push(["Aim", run.aims.get(i) || [...run.ends.subarray(6 * i + 3, 6 * i + 6)]]);
    for (const number of metIn(run, k)) {
      const block = run.blocks[number - 1];
      if (run.names.has(number)) add("Block " + number, run.names.get(number));
      places.push(["Block " + number, block.slice(0, 3)], ["", block.slice(3)]);
    }
    if (run.untried) add("Known", this.knownValue(run.untried.known.at(k)));
    add("Next", next ? "line " + next.line + " " + (run.code[next.statement] ? run.code[next.statement].word : "") : "nothing: the run has stopped");
    $("probe").replaceChildren(...entries);
    this.showPlaces(places);
  }
  // What is known of the machine, and what isn't.
  knownValue(known) {
    const value = element("dd"), lost = knownThings.filter((_, i) => !known[i]).map((it) => it.toLowerCase());
    value.append(knownThings.filter((_, i) => known[i]).join(", ").toLowerCase() || "nothing");
    if (lost.length) value.append(element("span", "not known: " + lost.join(", "), "lost"));
    return value;
  }
  // Points as rows of three numbers, below each other. Where numbers are wide the name stands above them, and where they are very wide each has a line of its own.
  showPlaces(places) {
    let longest = 0, isLong = false;
    const rows = places.map(([name, at, className]) => {
      isLong = isLong || name.length > 10;
      const row = element("tr", undefined, className);
      row.append(rowHead(name), ...at.map((x, i) => {
        const it = cell(typeof x === "string" ? x : millimetres(x), "n");
        it.dataset.axis = "XYZ"[i];
        longest = Math.max(longest, it.textContent.length);
        return it;
      }));
      return row;
    });
    $("places").tBodies[0].replaceChildren(...rows);
    setClass($("places"), longest > 12 ? "tall" : longest > 8 || isLong ? "wide" : "");
  }
  variableRow(name) {
    const row = element("tr"), value = cell("", "n mono"), set = cell("", "n");
    row.append(rowHead(name), value, set);
    return row;
  }
  showVariables(k) {
    this.variables.show(this.names.length, k);
  }
  // The variables whose names hold what is looked for.
  findVariables(text, k) {
    const wanted = text.trim().toUpperCase();
    this.names = [...this.run.variables.keys()].filter((it) => it.toUpperCase().includes(wanted));
    this.variables.forget();
    this.showVariables(k);
  }
  updateVariable(row, name, k) {
    const { changes } = this.run.variables.get(name), set = changes.setAt(k);
    setText(row.children[1], changes.at(k));
    setClass(row, set === k && k ? "changed" : "");
    if (row.dataset.set === String(set)) return;
    row.dataset.set = String(set);
    row.lastChild.replaceChildren(set === null ? element("span", "\u2013", "quietly") : this.jump(set));
  }
  pointRow(touch) {
    const { run } = this, actual = run.actual.get(touch.name), value = actual && actual.setAt(touch.step) === touch.step ? actual.at(touch.step) : null;
    const row = element("tr"), off = value ? deviationOf(run, touch.name, touch.step) : null, step = cell("", "n");
    step.append(this.jump(touch.step));
    row.append(rowHead(touch.name), ...(value ? value.slice(0, 3) : touch.at.map(millimetres)).map((x) => cell(x, "n mono")), cell(off === null ? "" : (off > 0 ? "+" : "") + millimetres(off), "n mono off"), step);
    return row;
  }
  showPoints(k) {
    const { run } = this, touched = run.touchSteps.count(k);
    if ($("points").hidden !== (touched === 0)) $("points").hidden = touched === 0;
    this.points.show(touched, k, true);
    setText($("points-count"), `${touched.toLocaleString("en")} of ${run.touches.length.toLocaleString("en")}`);
  }
  // What is told of the bodies of the probe, or of each of several probes and of what turns: contacts, and how much room is left. A row has a name, a text and its contact, or is a head.
  boxRows() {
    const { run } = this;
    if (!run.probes) return run.boxes.flatMap((it) => this.bodyRows(it));
    const rows = run.probes.all.flatMap((probe) => [{ head: `${probe.name} \u00b7 ${probe.ways ? countText(probe.ways, "way", "ways") : "not used"}` }, ...(probe.ways ? run.boxes.filter((it) => it.probe === probe && !it.isSwing).flatMap((it) => this.bodyRows(it)) : [])]);
    const swing = run.boxes.filter((it) => it.isSwing && (it.contacts.length || it.room !== null));
    if (swing.length) rows.push({ head: "What turns" }, ...swing.flatMap((it) => this.bodyRows(it)));
    if (run.beyond.length) rows.push({ head: "The pivot, beyond its limits" }, ...run.beyond.map((it) => ({ name: "", text: `${it.kind} at ${it.at.map(millimetres).join(" ")}`, contact: it })));
    return rows;
  }
  bodyRows({ short, contacts, room }) {
    const { run } = this;
    if (contacts.length) return contacts.map((it, i) => ({ name: i ? "" : short, text: `${it.kind} ${blockText(run, it.block)} at ${it.at.map(millimetres).join(" ")}`, contact: it }));
    return room === null ? [] : [{ name: short, text: `clear by ${millimetres(room)} mm${room < 50000 ? "" : " or more"}${isPartly(run) ? ", on the ways that were tried" : ""}`, contact: null }];
  }
  boxRow({ head, name, text, contact }) {
    const row = element("tr"), step = cell("", "n"), first = rowHead(head || name);
    if (head) {
      first.colSpan = 3;
      first.className = "group";
      row.append(first);
      return row;
    }
    if (contact && contact.step > 0) step.append(this.jump(contact.step));
    row.append(first, cell(text, contact ? "bad" : ""), step);
    return row;
  }
  outputRow(i) {
    const { run } = this, item = element("li"), text = this.jump(run.output.steps[i], " ");
    text.replaceChildren(...run.output.values[i].split(/(?<=,)/).flatMap((it) => [it, document.createElement("wbr")]));
    item.append(element("span", String(i + 1), "quietly"), text);
    return item;
  }
  showOutput(k) {
    const { run } = this, printed = run.output.count(k);
    this.output.show(printed, k, true);
    setText($("output-count"), `${printed.toLocaleString("en")} of ${run.output.steps.length.toLocaleString("en")}`);
  }
  // On paper stand all rows, unless there are very many.
  forPaper(is, k) {
    for (const it of [this.variables, this.points, this.boxes, this.output]) it.forPaper(is);
    this.show(k);
  }
}
