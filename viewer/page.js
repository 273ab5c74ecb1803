// The page: from step to step by keys, buttons, lines and playing. Texts of the run go into the page as text alone.

(() => {
  let run;
  try {
    run = readRun($("run").textContent);
    if ($("block-names")) readNames(run, $("block-names").textContent);
    if ($("untried")) readUntried(run, $("untried").textContent);
    readAdapted(run);
    if ($("probe-boxes")) readBoxes(run, $("probe-boxes").textContent);
    if ($("why")) readWhy(run, $("why").textContent);
  } catch (fault) {
    $("fault").hidden = false;
    $("fault").textContent = "The run in this page cannot be read: " + fault.message + ".";
    return;
  }

  const calm = matchMedia("(prefers-reduced-motion: reduce)"), narrow = matchMedia("(max-width: 900px)");
  // in the page for browsers, whose editor has the program and whose head has the verdict, the page of a run has the steps alone
  const isFramed = document.documentElement.classList.contains("framed");
  let now = 0, playing = false, lettersWork = true;

  // ---- the head

  const told = verdictWithUntried(run);
  $("title").textContent = run.title;
  document.title = run.title + " \u2013 " + told.text;
  $("verdict").className = "verdict " + told.kind;
  $("verdict").append(element("span", told.sign || { ok: "\u2713", bad: "\u2715", warn: "\u2026" }[told.kind], "sign"), " " + told.text);
  $("verdict").title = run.stop ? run.stop.text : told.line;
  $("facts").textContent = factsOf(run);
  $("not-tried").hidden = !isPartly(run);
  if (isPartly(run)) $("not-tried").replaceChildren(...run.untried.told.map((it) => element("li", it)));

  const listing = isFramed ? null : new Listing(run, $("program"));
  const panel = new Panel(run, showLine);
  const stage = new Stage(run, (k) => stepTo(k));
  // whether the state is in view: where it isn't, it is made once it is
  const isStateShown = () => $("state").clientHeight > 0;

  // Shows a line of the text, here or, in the page for browsers, in its editor.
  function showLine(line) {
    document.dispatchEvent(new CustomEvent("line", { detail: line }));
    if (!listing) return;
    if (document.body.dataset.panel === "state" && narrow.matches) document.querySelector('.tabs [data-panel="program"]').click();
    listing.point(line);
  }

  // ---- from step to step

  // The first contact, of a box or of the tip, or else the stop before the end: the page opens there, or at the end.
  const met = run.firstMet && run.firstMet.step > 0 ? run.firstMet.step : stopLineOf(run) ? run.stop.step : 0, first = met || run.length;
  $("to-met").hidden = met === 0;
  $("to-met").textContent = "\u2715 " + (run.firstMet || run.contact ? "First contact" : "Stop");
  document.documentElement.dataset.first = first;

  function goTo(k, speaks = true) {
    k = Math.max(0, Math.min(run.length, Math.round(k) || 0));
    now = k;
    const probe = shownAt(run, k), slider = $("slider");
    slider.value = k;
    slider.setAttribute("aria-valuetext", k ? `step ${k + run.from}, line ${run.line[k]}, ${wordAt(run, k)} ${doneText(run, k)}` : "the start");
    $("number").value = k + run.from;
    document.documentElement.dataset.line = k ? rowAt(run, k) : 0;
    document.documentElement.dataset.step = k;
    if (listing) listing.show(k);
    if (isStateShown()) panel.show(k);
    if (isFramed) showHere(k, probe);
    for (const id of ["to-start", "step-back"]) $(id).disabled = k === 0;
    for (const id of ["to-end", "step-on"]) $(id).disabled = k === run.length;
    for (const sheet of stage.flat) sheet.canvas.setAttribute("aria-label", `${sheet.sheet.name}: the probe is at ${probe.map(millimetres).join(" ")}`);
    stage.canvasOf("solid").setAttribute("aria-label", "View in space");
    if (speaks && !playing) $("said").textContent = slider.getAttribute("aria-valuetext");
    stage.show(k, probe);
  }
  function showHere(k, probe) {
    const count = (n) => n.toLocaleString("en"), where = element("b", k ? `Step ${count(k + run.from)} of ${count(run.length + run.from)}` : "Start", metIn(run, k).length ? "bad" : "");
    $("here").replaceChildren(where, ` \u00b7 ${tipText(run, k)} \u00b7 line ${k ? run.line[k] : "\u2013"}`, element("br"), element("span", probe.map(millimetres).join("  "), "mono"));
  }

  $("slider").max = run.length;
  $("number").min = run.from;
  $("number").max = run.length + run.from;
  $("number").style.width = Math.max(5, String(run.length + run.from).length + 2) * 0.62 + 1.9 + "em";
  $("of").textContent = "of " + (run.length + run.from).toLocaleString("en");

  // Playing: a step takes the time of its way, so that the probe goes evenly; with reduced motion it goes from step to step.
  let began = 0;
  function play(on) {
    playing = on;
    $("play").textContent = on ? "\u275a\u275a" : "\u25b6";
    $("play").setAttribute("aria-label", on ? "Stop playing" : "Play");
    if (!on) {
      stage.show(now, shownAt(run, now));
      return;
    }
    if (now === run.length) goTo(0);
    began = performance.now();
    requestAnimationFrame(frame);
  }
  const whole = Math.hypot(...stage.boxes.all.low.map((x, k) => stage.boxes.all.high[k] - x)) || 1;
  const long = ([a, b]) => Math.hypot(b[0] - a[0], b[1] - a[1], b[2] - a[2]);
  function wayOf(k) {
    const places = [];
    for (let i = run.pieceFrom[k]; i < run.pieceFrom[k + 1]; i++) if (run.kinds[i] !== "x") places.push([run.ends.subarray(6 * i, 6 * i + 3), run.ends.subarray(6 * i + 3, 6 * i + 6)]);
    return places;
  }
  function time(k) {
    return Math.max(run.untried && !isEvent(run, k) ? 20 : 140, Math.min(1600, (2200 * wayOf(k).reduce((sum, it) => sum + long(it), 0)) / whole)) / Number($("speed").value);
  }
  function frame(t) {
    if (!playing) return;
    let moved = false;
    while (now < run.length) {
      const takes = calm.matches ? Math.max(400 / Number($("speed").value), 60) : time(now + 1);
      if (t - began < takes) break;
      began += takes;
      now++;
      moved = true;
    }
    if (moved) goTo(now, false);
    if (now >= run.length) {
      play(false);
      return;
    }
    if (!calm.matches) glide(wayOf(now + 1), Math.min(1, (t - began) / time(now + 1)));
    requestAnimationFrame(frame);
  }
  // The probe on its way, so far along pieces.
  function glide(pieces, share) {
    let left = share * pieces.reduce((sum, it) => sum + long(it), 0);
    for (let i = 0; i < pieces.length; i++) {
      const [a, b] = pieces[i], own = long(pieces[i]);
      if (left <= own || i === pieces.length - 1) {
        const part = own ? Math.min(1, left / own) : 1;
        stage.show(now, [0, 1, 2].map((c) => a[c] + part * (b[c] - a[c])));
        return;
      }
      left -= own;
    }
  }
  function stepTo(k) {
    if (playing) play(false);
    goTo(k);
  }
  function toEvent(by) {
    let k = now + by;
    while (k > 0 && k < run.length && !isEvent(run, k)) k += by;
    stepTo(k);
  }
  function toSame(by, line = rowAt(run, now)) {
    const list = run.counts.get(line);
    if (!list) return;
    const k = by > 0 ? list.find((it) => it > now) : list.filter((it) => it < now).pop();
    stepTo(k !== undefined ? k : by > 0 ? list[0] : list[list.length - 1]);
  }

  $("to-start").onclick = () => stepTo(0);
  $("to-end").onclick = () => stepTo(run.length);
  $("to-met").onclick = () => stepTo(met);
  $("step-back").onclick = () => stepTo(now - 1);
  $("step-on").onclick = () => stepTo(now + 1);
  $("play").onclick = () => play(!playing);
  $("slider").oninput = () => stepTo(Number($("slider").value));
  $("number").onchange = () => stepTo(Number($("number").value) - run.from);
  $("variables-filter").oninput = () => panel.findVariables($("variables-filter").value, now);
  document.addEventListener("click", (event) => {
    const to = event.target.closest("[data-step]");
    if (to && to.tagName === "BUTTON") stepTo(Number(to.dataset.step));
    const row = event.target.closest(".line");
    if (row && !String(getSelection())) toSame(event.shiftKey ? -1 : 1, Number(row.dataset.line));
  });
  $("profile").addEventListener("pointerdown", (event) => {
    const to = (e) => {
      const box = $("profile").getBoundingClientRect();
      stepTo(((e.clientX - box.left - 8) / (box.width - 16)) * run.length);
    };
    to(event);
    $("profile").setPointerCapture(event.pointerId);
    $("profile").onpointermove = to;
    $("profile").onpointerup = $("profile").onpointercancel = () => { $("profile").onpointermove = null; };
  });
  for (const it of document.querySelectorAll(".tabs button")) it.onclick = () => {
    document.body.dataset.panel = it.dataset.panel;
    for (const other of document.querySelectorAll(".tabs button")) other.setAttribute("aria-pressed", String(other === it));
    $("state-open").setAttribute("aria-pressed", String(it.dataset.panel === "state"));
    if (listing) listing.show(now);
    if (isStateShown()) panel.show(now);
  };
  $("state-open").onclick = () => document.querySelector(`.tabs [data-panel="${document.body.dataset.panel === "state" ? "program" : "state"}"]`).click();
  let stateWasShown = isStateShown();
  new ResizeObserver(() => {
    if (isStateShown() && !stateWasShown) panel.show(now);
    stateWasShown = isStateShown();
  }).observe($("state"));

  // ---- keys

  $("keys-open").onclick = () => $("keys").showModal();
  $("letters").onchange = () => { lettersWork = $("letters").checked; };
  const views = ["all", "solid", "top", "front", "side"];
  const letters = {
    "[": () => toSame(-1), "]": () => toSame(1), w: () => stage.fit("all"), p: () => stage.fit("part"), f: () => stage.fit("probe"),
    "+": () => stage.zoom(1.3), "-": () => stage.zoom(1 / 1.3), "?": () => $("keys").showModal(),
    ...Object.fromEntries(views.map((it, i) => [i + 1, () => stage.setView(it)])),
  };
  document.addEventListener("keydown", (event) => {
    const on = event.target, tag = on.tagName;
    if (event.ctrlKey || event.metaKey || event.altKey || $("keys").open) return;
    if (tag === "SELECT" || (tag === "INPUT" && (on.type === "number" || on.type === "search"))) return;
    const radio = tag === "INPUT" && on.type === "radio";
    let used = true;
    if (event.key === "ArrowLeft" && !radio) event.shiftKey ? toEvent(-1) : stepTo(now - 1);
    else if (event.key === "ArrowRight" && !radio) event.shiftKey ? toEvent(1) : stepTo(now + 1);
    else if (event.key === "Home") stepTo(0);
    else if (event.key === "End") stepTo(run.length);
    else if (event.key === " " && tag !== "BUTTON") play(!playing);
    else if (lettersWork && Object.hasOwn(letters, event.key)) letters[event.key]();
    else used = false;
    if (used) event.preventDefault();
  });

  // ---- paper, and the step to begin with

  addEventListener("beforeprint", () => {
    if (listing) listing.forPaper(true);
    panel.forPaper(true, now);
    stage.forPaper(true);
  });
  addEventListener("afterprint", () => {
    if (listing) listing.forPaper(false);
    panel.forPaper(false, now);
    stage.forPaper(false);
  });
  if (narrow.matches || isFramed) stage.setView(stage.solid ? "solid" : "top");
  const asked = () => /^#step=(\d+)$/.exec(location.hash);
  addEventListener("hashchange", () => { if (asked()) stepTo(Number(asked()[1]) - run.from); });
  goTo(asked() ? Number(asked()[1]) - run.from : first, false);
  stage.fitNow();
})();
