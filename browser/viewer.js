// The page of a run, as `vcm view` writes it, in a frame of its own, where it leaves out its head and its program. A new one is made behind the old one and takes its
// place once it is there, with what was chosen in the old one: the step, unless that was the one it had opened at, the view, what is in view, and whether the state is shown.

class Viewer {
  constructor(box, whenStepped, whenLine) {
    this.box = box;
    this.whenStepped = whenStepped;
    this.whenLine = whenLine;
    this.frame = null;
    this.coming = null;
    this.watch = new MutationObserver(() => this.stepped());
    // what is dragged over the frame is the page's
    this.whenDragged = () => {};
  }
  // Shows the page of a run, with what `vcm why` tells of it; `isBare` where it has the part alone, and no run.
  show(page, why = "", isBare = false) {
    if (this.coming) this.coming.remove();
    const frame = document.createElement("iframe");
    frame.title = isBare ? "The part" : "The run, step by step";
    frame.className = "coming";
    frame.srcdoc = withWhy(page, why).replace('<html lang="en">', `<html lang="en" class="framed${isBare ? " bare" : ""}">`);
    frame.onload = () => this.come(frame, isBare);
    this.coming = frame;
    this.box.append(frame);
    this.setOld(false);
  }
  come(frame, isBare) {
    const before = this.frame && chosen(this.frame.contentDocument);
    choose(frame.contentDocument, before && this.isBare === isBare ? before : { ...(before || { view: "solid", fit: "part", panel: "program" }), step: null });
    if (this.frame) this.frame.remove();
    this.frame = frame;
    this.isBare = isBare;
    this.coming = null;
    frame.contentDocument.addEventListener("line", (event) => this.whenLine(event.detail));
    for (const kind of ["dragover", "drop"]) frame.contentWindow.addEventListener(kind, (event) => this.whenDragged(event));
    frame.className = "";
    this.watch.disconnect();
    this.watch.observe(frame.contentDocument.documentElement, { attributeFilter: ["data-step"] });
    this.stepped();
  }
  // No run is shown.
  clear() {
    this.watch.disconnect();
    this.box.replaceChildren();
    this.frame = this.coming = null;
  }
  // That the run is that of another text than the one which stands there now.
  setOld(isOld) {
    this.box.classList.toggle("old", isOld);
  }
  // Tells the line of the step that is shown, or 0 at the start.
  stepped() {
    this.whenStepped(this.isBare ? 0 : Number(this.frame.contentDocument.documentElement.dataset.line) || 0);
  }
  // Goes to the first contact, closely.
  seeContact() {
    if (!this.frame) return;
    const page = this.frame.contentDocument;
    page.getElementById("to-met").click();
    page.querySelector('input[name="fit"][value="probe"]').click();
    this.focus();
  }
  focus() {
    if (!this.frame) return;
    this.frame.focus();
    this.frame.contentDocument.getElementById("slider").focus();
  }
}

// A page with an element that says why its run stops, before its script, unless it has one. Of the text `<` and `%`, and what is no letter of ASCII, stand as the bytes that they are.
function withWhy(page, why) {
  const at = page.lastIndexOf("\n<script>"), spelled = why.replace(/[^\n -~]|[<%]/gu, (it) => [...encoder.encode(it)].map((byte) => "%" + byte.toString(16).toUpperCase().padStart(2, "0")).join(""));
  if (why === "" || at < 0 || page.includes('<script type="text/plain" id="why">')) return page;
  return `${page.slice(0, at)}\n<script type="text/plain" id="why">\n${spelled}<\/script>${page.slice(at)}`;
}

// What is chosen in a page of a run.
function chosen(page) {
  const slider = page.getElementById("slider"), radio = (name) => page.querySelector(`input[name="${name}"]:checked`);
  const isFirst = slider.value === page.documentElement.dataset.first;
  return { step: isFirst ? null : slider.value, view: radio("view").value, fit: radio("fit") && radio("fit").value, panel: page.body.dataset.panel };
}

// Chooses the same in another one.
function choose(page, { step, view, fit, panel }) {
  page.querySelector(`button[data-panel="${panel}"]`).click();
  for (const [name, value] of [["view", view], ["fit", fit]]) if (value) page.querySelector(`input[name="${name}"][value="${value}"]`).click();
  if (step === undefined || step === null) return;
  const slider = page.getElementById("slider");
  slider.value = step;
  slider.dispatchEvent(new Event("input"));
}
