// The page: a program, a part and a probe are edited, and vcm judges and runs them at each change. What vcm tells goes into the page as text alone.

// The most characters of an answer that are shown; all of it is saved.
const MOST_SHOWN = 200000;
// The most bytes of a text that vcm reads.
const MOST_BYTES = 33554432;
// The most bytes of a triangle mesh: a million triangles.
const MOST_MODEL_BYTES = 50000084;
// How long the page waits behind a key before it judges, and before it shows the steps anew, in milliseconds.
const PAUSE = 200, LONG_PAUSE = 900;
// The most lines that are marked as ones that weren't tried, and the most faults that are listed.
const MOST_MARKED = 20000, MOST_FAULTS = 500;
// The most steps that may be asked for, and how many are at first.
const MOST_STEPS = 1000000000, MOST_AT_FIRST = 1000000;
// The most steps of a run whose measured points are counted for the verdict.
const MOST_COUNTED = 100000;
// A program that moves nothing: with it the part is shown while there is no run.
const NOTHING = "DMISMN/'The part alone'\nUNITS/MM,ANGDEC\nENDFIL\n";

const $ = (id) => document.getElementById(id);
const encoder = new TextEncoder(), decoder = new TextDecoder();
const texts = ["program", "part", "probe"];

function download(bytes, name, type) {
  const link = document.createElement("a");
  link.href = URL.createObjectURL(new Blob([bytes], { type }));
  link.download = name;
  link.click();
  setTimeout(() => URL.revokeObjectURL(link.href), 60000);
}

function note(text) {
  $("note").textContent = text;
  $("note").hidden = text === "";
}

// Which of the texts a file is, by what stands in it.
function kindOf(name, text) {
  if (/^\s*\[\[\s*(box|probe)\s*\]\]/m.test(text)) return "probe";
  return /\.toml$/i.test(name) || /^\s*home\s*=\s*\[|^\s*\[\[\s*block\s*\]\]/m.test(text) ? "part" : "program";
}

class Page {
  constructor(vcm, examples) {
    this.vcm = vcm;
    this.examples = examples;
    this.program = new Editor("program", "program.dmi", "dmis");
    this.part = new Editor("part", "part.toml", "toml");
    this.probe = new Editor("probe", "", "toml");
    for (const it of texts) this[it].whenNamed = () => this.nameTabs();
    this.viewer = new Viewer($("frames"), (line) => this.stepped(line), (line) => this.goTo("program", line));
    this.finder = new Finder(() => this[this.tab]);
    this.drawing = new Drawing($("drawing"));
    this.form = new WholeForm($("whole"), $("tried"), (it) => this.setWhole(it), () => this.setWhole(null), (line) => this.goTo("program", line));
    this.splits = [new Splitter("split-columns", "--columns", 40), new Splitter("split-rows", "--rows", 64)];
    this.tab = "program";
    this.whole = null;
    this.run = null;
    this.turn = 0;
    this.edited = -LONG_PAUSE;
    this.answer = null;
    this.isKept = true;
    this.listen();
  }
  // The texts of the address, or those that were kept, or the first example.
  async begin() {
    let given = null;
    try {
      given = await unlinked(location.hash);
    } catch (fault) {
      note(`The texts of this link can't be read: ${fault.message}.`);
    }
    const isLinked = given !== null;
    given = given || kept();
    if (given) this.takeAll(given, isLinked);
    else this.example(0);
    return this;
  }

  // ---- what vcm is asked

  // The names by which vcm is told of the texts: those of their files, as far as they can stand on a command line beside each other.
  get names() {
    const named = (it, other) => it.name.replace(/^-+/, "") || other;
    const names = { program: named(this.program, "program.dmi"), part: named(this.part, "part.toml"), probe: named(this.probe, "probe.toml") };
    return new Set(Object.values(names)).size === 3 ? names : { program: "program.dmi", part: "part.toml", probe: "probe.toml" };
  }
  get given() {
    return { ...this.names, steps: String(this.limit <= MOST_STEPS ? this.limit : MOST_AT_FIRST) };
  }
  // The most steps of a run, as the field has them: a whole number, with or without commas between its digits.
  get limit() {
    return /^\d[\d, ]*$/.test($("limit").value.trim()) ? Number($("limit").value.replace(/\D/g, "")) : NaN;
  }
  get files() {
    return Object.fromEntries(texts.map((it) => [this.names[it], encoder.encode(this[it].text)]));
  }
  get hasProbe() {
    return this.probe.text.trim() !== "";
  }
  words(command) {
    return wordsOf(command, this.given, this.whole && wholeWords(this.whole));
  }
  // The words that ask for the page of the run.
  get viewWords() {
    return ["view", ...this.words("run").slice(1)];
  }
  // Judges and runs the texts as they stand now. A call that was ended, or a later turn, ends this one.
  async judge() {
    const turn = ++this.turn;
    this.vcm.end();
    this.began = performance.now();
    this.isTold = false;
    this.busy(true);
    this.isKept = keep(this.all);
    // an address that holds other texts than those that stand here now would bring them back at a reload
    if (location.hash.startsWith(MARK) && this.inAddress !== JSON.stringify(this.all)) history.replaceState(null, "", location.pathname + location.search);
    const files = this.files;
    const ask = async (words, others) => {
      const it = turn === this.turn ? await this.vcm.call(words, { ...files, ...others }) : ended;
      if (it.isEnded || turn !== this.turn) throw ended;
      if (it.fault !== undefined) throw new Error("vcm did not answer: " + it.fault);
      return { ...it, text: decoder.decode(it.out), told: decoder.decode(it.err) };
    };
    try {
      await this.tell(await this.asked(ask), ask);
    } catch (fault) {
      if (fault === ended) return;
      this.tellVerdict(verdictOf({ failed: fault.message }));
    }
    if (turn === this.turn) this.busy(false);
  }
  // All that the verdict is made of.
  async asked(ask) {
    const given = this.given, ran = await ask(this.words("run")), part = await ask(["part", given.part]);
    const judged = this.whole ? { told: "" } : await ask(this.words("check"));
    const whyText = ran.status === 3 ? (await ask(this.words("why"))).text : "", why = readWhy(whyText);
    const clearance = this.hasProbe ? await ask(this.words("clearance")) : null;
    const survey = !this.whole && isAdapted(this.program.text) ? await this.surveyed(ask) : "";
    const brought = !this.whole && !hasRun(ran) ? await ask(["check", "--whole", given.program]) : null;
    const tried = this.whole && hasRun(ran) ? await ask(this.words("trace")) : null;
    return { ran, part, judged, why, whyText, clearance, survey, brought, tried };
  }
  // What `vcm survey` says of the text that an adapted one came from.
  async surveyed(ask) {
    const { program, part } = this.names, before = { [program]: encoder.encode(restored(this.program.text)) }, words = ["survey", program, "--part", part];
    return (await ask([...words, "--lines"], before)).text + (await ask(words, before)).text;
  }
  async tell(asked, ask) {
    const { ran, part, clearance, why } = asked, stop = readStop(hasRun(ran) ? stopOf(ran.text) : "");
    const faults = this.faultsOf(asked), untried = hasRun(ran) ? [...(this.whole ? readUntried(ran.told) : []), ...(asked.survey ? readLeftOut(asked.survey, this.program.text) : [])] : [];
    const unused = part.status === 0 ? noticesOf(part.told) : [], met = clearance && firstMetOf(clearance.text), blockLines = blockLinesOf(part.text);
    const failed = faults.length === 0 && !hasRun(ran) ? (ran.told.trim() || ran.text.trim() || "vcm did not answer").split("\n")[0] : "";
    const meaning = await this.meaningOf(faults.length ? faults[0].text : failed || (stop.word === "ENDED" ? "" : stop.text), ask);
    const notices = noticesOf(ran.told).map((it) => it.line), steps = Number((/^steps (\d+)$/m.exec(ran.text) || [])[1] || 0);
    // a box that meets a block before the tip does is told first; one that meets it behind the stop isn't
    const isMet = met && (ran.status !== 3 || met.step <= steps);
    const beyond = clearance ? firstBeyondOf(clearance.text) : 0, lost = clearance && lostOf(clearance.text);
    const verdict = verdictOf({ beyond, lost, faults, failed, stop, why, untried, adapted: adaptedLines(this.program.text), unused, meaning, met: isMet ? met : null, metName: isMet && this.nameOfBlock(met.block), steps: this.given.steps, ran: { status: ran.status, steps, notices, measured: await this.measured(ran, steps, ask) } });
    this.mark({ faults, stop, why, untried, unused, notices, met: isMet ? met : null, other: lost ? { line: lost.line, message: `no probe has the number ${lost.value}` } : beyond ? { line: beyond, message: "the pivot goes beyond its limits" } : null });
    this.showFaults(faults);
    this.showMeaning(meaning, faults.length > 0);
    this.showWhy(stop, why, blockLines);
    this.form.tell(this.triedText(asked.tried), untried);
    this.isTold = true;
    const canBring = Boolean(asked.brought && asked.brought.status === 0 && faults.some((it) => it.which === "program"));
    $("bring").hidden = !canBring;
    if (canBring) verdict.detail.push("it may be the text of another system: Bring it in runs it as it stands, and tells what is tried of it");
    this.tellVerdict(verdict);
    await this.showAnswer(ran, ask);
    await this.show(asked, ask);
  }
  faultsOf({ ran, part, judged, clearance }) {
    const own = this.whole ? ran.told : judged.told, broken = partFaultOf(part.told), of = (which, list) => list.map((it) => ({ ...it, which }));
    const inPart = of("part", faultsOf(ran.told).filter((it) => it.code[0] === "P"));
    for (const it of inPart) {
      it.lines = it.place === "block" ? linesOfBlock(this.part.text, it.number) : [];
      if (broken) Object.assign(it, { line: broken.line, statement: broken.text.replace(/^block \d+: /, ""), lines: it.lines.length ? it.lines : [broken.line] });
      else it.line = it.lines[0];
    }
    const inProbe = clearance ? of("probe", faultsOf(clearance.told).filter((it) => it.code[0] === "B")) : [];
    // a probe that is refused in other words is at fault too
    if (clearance && hasRun(ran) && !hasRun(clearance) && inProbe.length === 0) inProbe.push({ text: clearance.told.trim().split("\n")[0], code: "", statement: "", which: "probe" });
    for (const it of inProbe) {
      it.lines = linesOfProbe(this.probe.text, it);
      it.line = it.lines[0];
    }
    const inProgram = of("program", faultsOf(own).filter((it) => !"PB".includes(it.code[0])));
    for (const it of inProgram) [it.line, it.lines] = it.place === "line" ? [it.number, [it.number]] : [0, []];
    return [...inPart, ...inProbe, ...inProgram];
  }
  nameOfBlock(block) {
    const lines = linesOfBlock(this.part.text, block).map((it) => /^\s*name\s*=\s*"(.*)"/.exec(this.part.lines[it - 1]));
    return (lines.find((it) => it) || [])[1];
  }
  // How many points were measured; of a long run that isn't asked, since it would be made once more for it.
  async measured(ran, steps, ask) {
    return hasRun(ran) && steps <= MOST_COUNTED ? Math.max(0, (await ask(this.words("points"))).text.trim().split("\n").length - 1) : 0;
  }
  // How many motions of a whole text were carried out, and on how many lines.
  triedText(tried) {
    if (!tried) return "";
    const rows = tried.text.split("\n").filter((it) => /,(moved|FA\(\w+\) [^,]*)$/.test(it));
    return `tried: ${counted(rows.length, "motion", "motions")} on ${counted(new Set(rows.map((it) => it.split(",")[2])).size, "line", "lines")}`;
  }
  async meaningOf(text, ask) {
    const told = text === "" ? { status: 1 } : await ask(["explain", ...explained(text)]);
    return told.status === 0 ? flowing(told.text) : "";
  }
  async show({ ran, part, whyText }, ask) {
    const isRun = hasRun(ran), isBare = !isRun && this.run === null;
    $("page-save").disabled = !isRun;
    $("old").hidden = isRun;
    $("old").textContent = this.run === null ? "the part alone: no run of these texts" : "the run of the texts before";
    if (!isRun && !isBare) return this.viewer.setOld(true);
    if (isBare && part.status !== 0) return this.viewer.setOld(true);
    const page = isBare ? await ask(["view", "nothing", this.names.part], { nothing: encoder.encode(NOTHING) }) : await ask([...this.viewWords, ...(this.hasProbe ? ["--probe", this.names.probe] : [])]);
    if (isBare && page.status !== 0) return this.viewer.setOld(true);
    // a frame takes the page for a while, so none is made between two keys
    this.busy(false);
    const turn = this.turn, rest = this.edited + LONG_PAUSE - performance.now();
    if (rest > 0) await new Promise((done) => setTimeout(done, rest));
    if (turn !== this.turn) return;
    // where the probe's text is refused the run is shown without its boxes
    if (!isBare && !hasRun(page)) return this.showWithoutBoxes(whyText, ask);
    this.run = isBare ? null : page.out;
    this.viewer.show(page.text, whyText, isBare);
  }
  async showWithoutBoxes(whyText, ask) {
    const page = await ask(this.viewWords);
    if (!hasRun(page)) return;
    this.run = page.out;
    this.viewer.show(page.text, whyText);
  }
  async showAnswer(ran, ask) {
    const command = $("command").value, it = commands[command], isWanting = it.needsProbe && !this.hasProbe;
    const answer = isWanting ? { text: "", told: "Write the boxes of a probe first, in the tab Probe.", out: new Uint8Array(0), status: 1 } : command === "run" ? ran : await ask(this.words(command));
    this.answer = answer;
    const isDrawn = it.isDrawing && answer.out.length > 0, [out, err] = [isDrawn ? "" : answer.text, answer.told].map(shown), left = out.length - MOST_SHOWN;
    $("answer").textContent = (left > 0 ? out.slice(0, MOST_SHOWN) + `\n(${left.toLocaleString("en")} more characters; Save has them all)\n` : out) + err;
    this.drawing.show(isDrawn ? answer.out : null);
    $("answer-save").disabled = answer.out.length === 0;
  }

  // ---- what is shown of it

  tellVerdict(verdict) {
    this.told = verdict;
    $("verdict").className = "verdict " + verdict.kind;
    $("sign").textContent = verdict.sign;
    $("headline").textContent = shown(verdict.headline);
    $("detail").textContent = shown(sentences(verdict.detail));
    document.title = "vcm \u2013 " + shown(verdict.headline);
    $("to-line").hidden = !verdict.line;
    $("to-line").textContent = `Go to line ${verdict.line}` + (verdict.which === "program" ? "" : ` of the ${verdict.which}`);
    $("to-contact").hidden = !verdict.contact;
  }
  mark({ faults, stop, why, untried, unused, notices, met, other }) {
    const of = (which) => faults.filter((it) => it.which === which).flatMap((it) => it.lines.slice(0, 1000).map((line, i) => ({ line, message: i ? "" : it.text + (which === "program" ? it.about && ": " + it.about : ": " + it.statement), word: this.wordOf(it) })));
    const bad = of("program");
    if (stop.line && stop.word !== "ENDED") bad.push({ line: stop.line, word: why.statement, message: stop.block ? `meets ${blockText(stop.block, why.name)}` + (why.free ? `; free ${capitals(why.free)}` : "") : stop.text });
    if (other) bad.push(other);
    if (met) bad.push({ line: met.line, message: `${bodyText(met)} meets ${blockText(met.block, this.nameOfBlock(met.block))}, the ${met.kind === "SWING" ? "pivot" : "tip"} at ${met.at}` });
    this.program.mark("now", []);
    this.program.mark("notice", notices.map((line) => ({ line })));
    this.program.mark("skipped", untried.flatMap((it) => it.lines.map((line) => ({ line, message: (it.kind === "from" ? it.text : it.kind) + (it.cause && it.kind !== "from" ? ": " + it.cause : "") }))).slice(0, MOST_MARKED));
    this.program.mark("bad", bad);
    this.part.mark("notice", unused.map((it) => ({ line: it.line, message: it.text, word: it.text.split(" ")[0] })));
    this.part.mark("bad", of("part"));
    this.probe.mark("bad", of("probe"));
    for (const it of texts) $(it + "-tab").dataset.mark = this[it].linesOf("bad").length ? "bad" : this[it].linesOf("skipped").length || (it === "part" && unused.length) ? "warn" : "";
  }
  // What of a statement is underlined: of one whose word isn't known that word alone.
  wordOf(fault) {
    const word = /^E05 /.test(fault.text) && /^(?:[^=/]*=)?\s*([^/=]+)/.exec(fault.statement);
    return word ? word[1] : fault.which === "program" ? fault.statement : undefined;
  }
  showFaults(faults) {
    const list = $("faults"), buttons = [];
    $("why").after($("meaning"));
    for (const fault of faults.slice(0, MOST_FAULTS)) {
      const item = document.createElement("li"), button = element("button", fault.text + " ");
      button.type = "button";
      button.append(element("small", shown((fault.place || !fault.line ? "" : `line ${fault.line}: `) + fault.statement)));
      if (fault.about) button.append(document.createElement("br"), element("small", shown(fault.about)));
      button.setAttribute("aria-current", String(buttons.length === 0));
      button.onclick = () => this.goToFault(fault, button);
      item.append(button);
      buttons.push(item);
    }
    // what may be caused by a line that can't be read is told once that is mended
    if (faults.some((it) => it.which === "program" && it.place === "line")) buttons.push(element("li", "others may follow once these are mended", "name"));
    if (faults.length > MOST_FAULTS) buttons.push(element("li", `${(faults.length - MOST_FAULTS).toLocaleString("en")} more`, "name"));
    list.replaceChildren(...buttons);
    list.hidden = buttons.length === 0;
    if (buttons.length) buttons[0].append($("meaning"));
  }
  // What a fault means is shown at once, what a stop means where one asks for it.
  showMeaning(meaning, isOpen) {
    const box = $("meaning"), pre = box.querySelector("pre");
    box.hidden = meaning === "";
    if (pre.textContent === meaning) return;
    pre.textContent = meaning;
    box.open = isOpen;
  }
  showWhy(stop, why, blockLines) {
    const rows = stop.word === "ENDED" ? [] : whyRows(stop, why, blockLines);
    $("why").hidden = rows.length === 0;
    $("why").replaceChildren(...rows.flatMap(([name, parts]) => {
      const value = element("dd");
      value.append(...parts.map((it) => (typeof it === "string" ? shown(it) : this.lineLink(it))));
      return [element("dt", name), value];
    }));
  }
  lineLink({ which, line, text }) {
    const link = element("button", text, "link");
    link.type = "button";
    link.onclick = () => this.goTo(which, line);
    return link;
  }
  goTo(which, line) {
    if (this.isNarrow) this.choose("texts");
    this.open(which);
    this[which].goTo(line);
  }
  async goToFault(fault, button) {
    for (const it of $("faults").querySelectorAll("button")) it.setAttribute("aria-current", String(it === button));
    button.after($("meaning"));
    this.goTo(fault.which, fault.line || 1);
    const told = await this.vcm.call(["explain", ...explained(fault.text)]);
    if (told.status === 0) this.showMeaning(flowing(decoder.decode(told.out)), true);
  }
  // The line of the step that the viewer shows; at a stop that line is marked as such already.
  stepped(line) {
    if (this.viewer.box.classList.contains("old")) return;
    this.program.mark("now", line && !this.program.linesOf("bad").includes(line) ? [{ line }] : []);
    if (line && document.activeElement !== this.program.area) this.program.show(line);
  }
  // How long vcm has been at work, told where it takes longer than one notices. What is shown of the texts before is paler then.
  busy(isBusy) {
    clearInterval(this.clock);
    if (isBusy) this.clock = setInterval(() => this.tick(), 100);
    $("busy").hidden = $("stop").hidden = true;
    document.body.dataset.late = "";
  }
  tick() {
    const seconds = (performance.now() - this.began) / 1000;
    if (seconds < 0.5) return;
    $("busy").hidden = $("stop").hidden = false;
    document.body.dataset.late = this.isTold ? "steps" : "all";
    $("busy").textContent = `at work for ${seconds.toFixed(1)} s`;
  }
  halt() {
    this.turn++;
    this.vcm.end();
    this.busy(false);
    this.viewer.setOld(true);
    this.tellVerdict({ kind: "warn", sign: "\u2026", headline: "Stopped at your wish", detail: ["change a text, or the number of steps, to begin again"] });
  }

  // ---- texts from files and to files

  get all() {
    return { ...Object.fromEntries(texts.map((it) => [it, { text: this[it].text, name: this[it].name }])), whole: this.whole };
  }
  takeAll({ program, part, probe, whole }, isLinked = false) {
    this.program.take(program.text, program.name || "program.dmi");
    this.part.take(part.text, part.name || "part.toml");
    this.probe.take(probe.text, probe.name);
    this.whole = whole;
    if (isLinked) this.inAddress = JSON.stringify(this.all);
    $("example").value = "";
    this.afresh();
  }
  example(number) {
    const it = this.examples[number];
    this.takeAll({ program: { text: it.program, name: it.programName }, part: { text: it.part, name: it.partName }, probe: { text: "", name: "" }, whole: null });
    $("example").value = number;
  }
  // Another text was taken, beside which the run that is shown has no meaning any more.
  afresh() {
    this.viewer.clear();
    this.form.show(this.whole);
    this.run = null;
    if (this.finder.form.hidden === false) this.finder.close();
    return this.judge();
  }
  setWhole(whole) {
    const isOpened = whole !== null && this.whole === null;
    this.whole = whole;
    this.form.show(whole);
    if (isOpened || whole === null) return this.afresh();
    return this.soon();
  }
  // A file from which vcm makes one of the texts: a triangle mesh becomes the part, a description of head and styli the probes.
  async openMade(command, file, which, ending) {
    if (file.size > MOST_MODEL_BYTES) {
      note(`${file.name} has more than ${MOST_MODEL_BYTES.toLocaleString("en")} bytes: vcm reads no more of a model.`);
      return;
    }
    const name = file.name.replace(/^-+/, "") || "model", turn = ++this.turn;
    this.vcm.end();
    this.began = performance.now();
    this.busy(true);
    const made = await this.vcm.call([command, name], { [name]: new Uint8Array(await file.arrayBuffer()) });
    if (made.isEnded || turn !== this.turn) return;
    this.busy(false);
    if (made.fault !== undefined) return this.tellVerdict(verdictOf({ failed: "vcm did not answer: " + made.fault }));
    const told = decoder.decode(made.err).trim().split("\n").join("; ");
    if (made.status === 0) {
      this[which].take(decoder.decode(made.out), name.replace(/\.\w+$/, "") + ending);
      $("example").value = "";
      this.open(which);
      this.afresh();
    }
    note(shown(`${file.name}: ${told || "its probes, as vcm probe makes them"}`));
  }
  async openFiles(files) {
    note("");
    let taken = false;
    for (const file of files) taken = (await this.openFile(file)) || taken;
    if (taken) this.afresh();
  }
  async openFile(file) {
    if (/\.stl$/i.test(file.name)) return void (await this.openMade("blocks", file, "part", ".toml"));
    if (file.size > MOST_BYTES) return void note(`${file.name} has more than ${MOST_BYTES.toLocaleString("en")} bytes: vcm reads no more.`);
    const bytes = new Uint8Array(await file.arrayBuffer()), text = decoder.decode(bytes);
    if (text.startsWith("VCMI")) return void note(`${file.name} is an image of a program. This page takes texts.`);
    if (/^\s*\[\[\s*tip\s*\]\]/m.test(text)) return void (await this.openMade("probe", file, "probe", "-probes.toml"));
    const which = kindOf(file.name, text);
    this[which].take(text, file.name);
    if (which === "program") this.whole = null;
    $("example").value = "";
    this.open(which);
    if (text.includes("\ufffd")) note(`${file.name} has bytes that are no UTF-8: \ufffd stands for each.`);
    return true;
  }
  save(which) {
    const it = this[which];
    download(it.end === "\n" ? it.text : it.text.replaceAll("\n", it.end), it.name || this.names[which], "text/plain");
    it.saved();
  }
  nameOf(ending) {
    return (this.program.name || "program").replace(/\.\w+$/, "") + ending;
  }
  // A link that holds the texts, in the address and, where the browser allows it, on the clipboard.
  async link() {
    const hash = await linked(this.all);
    this.inAddress = JSON.stringify(this.all);
    history.replaceState(null, "", hash);
    const copied = await Promise.resolve(navigator.clipboard && navigator.clipboard.writeText(location.href)).then(() => Boolean(navigator.clipboard), () => false);
    note(`The link of these texts stands in the address${copied ? " and is copied" : "; copy it from there"} (${location.href.length.toLocaleString("en")} characters). Nothing of it is sent to anybody: what stands behind # stays in the browser.`);
  }

  // ---- controls

  get isNarrow() {
    return matchMedia("(max-width: 999px)").matches;
  }
  choose(what) {
    document.body.dataset.show = what;
    for (const it of document.getElementsByName("show")) it.checked = it.value === what;
  }
  // Shows one of the texts.
  open(which) {
    this.tab = which;
    for (const it of texts) {
      $(it + "-text").hidden = it !== which;
      $(it + "-tab").setAttribute("aria-selected", String(it === which));
      $(it + "-tab").tabIndex = it === which ? 0 : -1;
    }
    if (!this.finder.form.hidden) this.finder.look();
    this[which].draw();
  }
  nameTabs() {
    const names = { program: "Program", part: "Part", probe: "+ Probe" };
    for (const it of texts) $(it + "-tab").textContent = (it === "probe" && !this.hasProbe ? "" : this[it].name) || (it === "probe" && this.hasProbe ? "Probe" : names[it]);
    for (const it of texts) $(it + "-tab").classList.toggle("changed", this[it].isChanged);
  }
  soon() {
    this.edited = performance.now();
    clearTimeout(this.waits);
    this.waits = setTimeout(() => this.judge(), PAUSE);
  }
  listen() {
    for (const which of texts) this.listenTo(which);
    $("example").replaceChildren(new Option("Examples", ""), ...this.examples.map((it, i) => new Option(it.title, i)));
    $("example").options[0].disabled = true;
    $("example").onchange = () => this.changeExample();
    $("command").replaceChildren(...Object.keys(commands).map((it) => new Option("vcm " + (commands[it].name ? `${commands[it].name} --${it}` : it), it)));
    $("command").onchange = () => this.judge();
    $("limit").oninput = () => {
      const isGood = this.limit <= MOST_STEPS;
      $("limit").setCustomValidity(isGood ? "" : "a whole number up to 1,000,000,000");
      if (isGood) this.soon();
    };
    $("limit").onchange = () => ($("limit").value = (this.limit <= MOST_STEPS ? this.limit : MOST_AT_FIRST).toLocaleString("en"));
    $("stop").onclick = () => this.halt();
    $("to-line").onclick = () => this.goTo(this.told.which, this.told.line);
    $("to-contact").onclick = () => {
      if (this.isNarrow) this.choose("steps");
      this.viewer.seeContact();
    };
    $("bring").onclick = () => this.setWhole({});
    $("page-save").onclick = () => download(this.run, this.nameOf(".html"), "text/html");
    $("answer-save").onclick = () => download(this.answer.out, this.nameOf("-" + $("command").value + commands[$("command").value].end), "text/plain");
    $("link").onclick = () => this.link();
    $("forget").onclick = () => {
      keep(null);
      history.replaceState(null, "", location.pathname);
      $("forget").textContent = "Forgotten, until the next change";
    };
    $("about-open").onclick = () => $("about").showModal();
    $("menu").onclick = (event) => {
      if (event.target.tagName === "BUTTON") $("menu").open = false;
    };
    $("menu").onkeydown = (event) => {
      if (event.key !== "Escape") return;
      $("menu").open = false;
      $("menu").querySelector("summary").focus();
    };
    addEventListener("pointerdown", (event) => $("menu").contains(event.target) || ($("menu").open = false));
    $("open").onclick = () => $("file").click();
    $("file").onchange = async (event) => {
      await this.openFiles([...event.target.files]);
      event.target.value = "";
    };
    for (const it of document.getElementsByName("show")) it.onchange = () => this.choose(it.value);
    document.querySelector("[role=tablist]").addEventListener("keydown", (event) => this.turnTabs(event));
    addEventListener("keydown", (event) => {
      if (event.key !== "f" || !(event.ctrlKey || event.metaKey) || event.altKey || event.shiftKey) return;
      event.preventDefault();
      if (this.isNarrow) this.choose("texts");
      this.finder.open();
    });
    addEventListener("hashchange", () => unlinked(location.hash).then((it) => it && this.takeAll(it, true), (fault) => note(`The texts of this link can't be read: ${fault.message}.`)));
    addEventListener("beforeunload", (event) => {
      if (!this.isKept && texts.some((it) => this[it].isChanged)) event.preventDefault();
    });
    this.listenToDrops();
  }
  // Files are taken wherever they are dropped on the page.
  listenToDrops() {
    let inside = 0;
    const show = (is) => document.body.classList.toggle("dropping", is);
    addEventListener("dragenter", () => show(++inside > 0));
    addEventListener("dragleave", () => show((inside = Math.max(0, inside - 1)) > 0));
    const take = (event) => {
      const files = [...event.dataTransfer.files];
      if (event.type === "dragover") return void (event.dataTransfer.types.includes("Files") && event.preventDefault());
      show(false);
      inside = 0;
      if (files.length === 0) return;
      event.preventDefault();
      this.openFiles(files);
    };
    addEventListener("dragover", take);
    addEventListener("drop", take);
    this.viewer.whenDragged = take;
  }
  turnTabs(event) {
    const by = { ArrowRight: 1, ArrowLeft: texts.length - 1 }[event.key];
    if (!by) return;
    event.preventDefault();
    this.open(texts[(texts.indexOf(this.tab) + by) % texts.length]);
    $(this.tab + "-tab").focus();
  }
  listenTo(which) {
    const { area } = this[which];
    area.addEventListener("input", () => this.soon());
    area.addEventListener("keydown", (event) => {
      if (event.key !== "Enter" || !event.ctrlKey) return;
      event.preventDefault();
      if (this.isNarrow) this.choose("steps");
      this.viewer.focus();
    });
    $(which + "-tab").onclick = () => this.open(which);
    $(which + "-save").onclick = () => this.save(which);
  }
  changeExample() {
    const isLost = texts.some((it) => this[it].isChanged) && !confirm("The texts were changed and not saved. Take the example in their place?");
    if (isLost) return;
    note("");
    this.example(Number($("example").value));
  }
}

async function begin() {
  if (!hasMemory64()) {
    $("headline").textContent = "This browser can't run vcm";
    return note("This browser lacks memories of WebAssembly with addresses of 64 bits (Memory64), which this page needs: Chromium, Chrome or Edge 133, Firefox 134, or newer.");
  }
  const module = await WebAssembly.compile(await unpacked($("module").textContent));
  return new Page(new Vcm(module, $("worker").textContent), JSON.parse($("examples").textContent)).begin();
}

const page = begin().catch((fault) => note("The page could not begin: " + fault.message));
