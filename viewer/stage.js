// The four views beside each other: what is in view, how near, and what a pointer does on them.

class Stage {
  // `whenStepped` is called with the step of a piece that is clicked.
  constructor(run, whenStepped) {
    this.run = run;
    this.whenStepped = whenStepped;
    this.camera = { centre: [0, 0, 0], scale: 0.001, solid: 1 };
    this.colours = readColours();
    this.fitting = "all";
    this.step = 0;
    this.probe = run.home;
    this.isWaiting = false;
    this.later = 0;
    this.isOnPaper = false;
    this.flat = ["top", "front", "side"].map((key) => new Sheet(run, this.canvasOf(key), key, this.camera));
    this.profile = new Profile(run, $("profile"));
    this.solid = null;
    try {
      const solid = new Solid(run, document.querySelector("canvas.gl"), document.querySelector("canvas.over"), this.camera);
      if (solid.gl) this.solid = solid;
    } catch (fault) { /* the other three views show the same */ }
    if (!this.solid) document.querySelector("[data-sheet=solid]").classList.add("none");
    const whole = boxOf(pointsOfWhole(run));
    this.boxes = { all: whole, part: run.blocks.length ? boxOf(pointsOfPart(run)) : whole };
    this.makeLegend();
    for (const sheet of [...this.flat, ...(this.solid ? [this.solid] : [])]) this.listenTo(sheet);
    for (const it of document.getElementsByName("view")) it.onchange = () => this.setView(it.value);
    for (const it of document.getElementsByName("fit")) it.onchange = () => this.fit(it.value);
    for (const it of document.querySelectorAll("[data-turn]")) it.onclick = () => {
      const [x, y] = { left: [-0.2, 0], right: [0.2, 0], up: [0, 0.15], down: [0, -0.15] }[it.dataset.turn];
      if (this.solid) this.solid.turn(x, y);
      this.draw();
    };
    new ResizeObserver(() => this.fitting ? this.fitNow() : this.draw()).observe(document.querySelector(".sheets"));
    new ResizeObserver(() => this.draw()).observe($("profile"));
    matchMedia("(prefers-color-scheme: dark)").addEventListener("change", () => this.recolour());
  }
  canvasOf(key) {
    return document.querySelector(`[data-sheet=${key}] canvas:not(.gl)`);
  }
  makeLegend() {
    const { run } = this, legend = $("legend"), kinds = new Set(run.kinds);
    for (const kind of "measrx") if (kinds.has(kind)) legend.append(element("span", kindNames[kind], "key " + kind), " ");
    if (run.turns.size) legend.append(element("span", "turn of the head", "key turn"), " ");
    if (run.touches.length) legend.append(element("span", "touched", "key dot"), " ");
    legend.append(element("span", "probe", "key ring"));
  }

  // ---- what is in view

  setView(view) {
    $("views").dataset.view = view;
    for (const it of document.getElementsByName("view")) it.checked = it.value === view;
    this.fitNow();
    this.draw();
  }
  fit(what) {
    this.fitting = what;
    for (const it of document.getElementsByName("fit")) it.checked = it.value === what;
    this.fitNow();
  }
  fitNow() {
    const { camera, fitting, run, solid } = this;
    if (!fitting) return;
    let box = this.boxes[fitting];
    if (fitting === "probe") {
      const reach = Math.max(8000, 6 * tipAt(run, this.step));
      box = { low: this.probe.map((x) => x - reach), high: this.probe.map((x) => x + reach) };
    }
    camera.centre = box.low.map((x, k) => (x + box.high[k]) / 2);
    const size = box.high.map((x, k) => Math.max(x - box.low[k], 2000));
    let scale = Infinity;
    for (const sheet of this.flat) {
      const w = sheet.canvas.clientWidth, h = sheet.canvas.clientHeight;
      if (!w || !h) continue;
      scale = Math.min(scale, (0.8 * w) / size[sheet.sheet.right], (0.74 * h) / size[sheet.sheet.up]);
    }
    const over = this.canvasOf("solid");
    if (solid && over.clientWidth) {
      const corners = [0, 1, 2, 3, 4, 5, 6, 7].map((n) => camera.centre.map((x, k) => x + (n & (1 << k) ? 0.5 : -0.5) * size[k]));
      const own = solid.fit(fitting === "all" ? pointsOfWhole(run) : fitting === "part" && run.blocks.length ? pointsOfPart(run) : corners, 0.84 * over.clientWidth, 0.76 * over.clientHeight);
      if (scale === Infinity) scale = own;
      camera.solid = own / scale;
    }
    if (scale < Infinity) camera.scale = scale;
    this.draw();
  }
  zoom(by, sheet, x, y) {
    const most = 0.5, least = 1e-7, { camera } = this, scale = Math.max(least, Math.min(most, camera.scale * by));
    if (sheet && sheet.sheet) {
      const { right, up } = sheet.sheet, grown = 1 / camera.scale - 1 / scale;
      camera.centre[right] += (x - sheet.width / 2) * grown;
      camera.centre[up] -= (y - sheet.height / 2) * grown;
    }
    camera.scale = scale;
    this.loose();
    this.draw();
  }
  loose() {
    this.fitting = null;
    for (const it of document.getElementsByName("fit")) it.checked = false;
  }

  // ---- drawing

  show(k, probe) {
    this.step = k;
    this.probe = probe;
    if (this.fitting === "probe") this.fitNow(); else this.draw();
  }
  recolour() {
    this.colours = readColours();
    this.draw();
  }
  draw() {
    if (this.isWaiting) return;
    this.isWaiting = true;
    requestAnimationFrame(() => {
      this.isWaiting = false;
      this.drawNow(this.isOnPaper ? 3 : devicePixelRatio || 1);
    });
  }
  drawNow(ratio) {
    for (const sheet of this.flat) if (sheet.size(ratio)) sheet.draw(this.colours, this.step, this.probe);
    if (this.solid) this.drawSolid(ratio);
    this.profile.draw(this.colours, this.step, ratio);
  }
  // Where a frame in space takes long, it is drawn once nothing has changed for a while.
  drawSolid(ratio) {
    clearTimeout(this.later);
    if (this.isOnPaper) return this.solid.drawAsPicture(this.colours, this.step, this.probe, ratio);
    const now = () => this.solid.draw(this.colours, this.step, this.probe, ratio);
    if (this.solid.isSlow) this.later = setTimeout(now, 250); else now();
  }
  forPaper(is) {
    document.documentElement.classList.toggle("paper", is);
    this.colours = readColours();
    this.isOnPaper = is;
    if (is) {
      this.before = $("views").dataset.view;
      this.setView("all");
      this.drawNow(3);
    } else this.setView(this.before);
  }

  // ---- pointers

  tipOf(found) {
    const { run } = this, text = (from) => [from, from + 1, from + 2].map((i) => millimetres(run.ends[i])).join(" ");
    if (found.piece !== undefined) {
      const i = found.piece, k = run.pieceStep[i];
      return `step ${k + run.from}, line ${run.line[k]}: ${kindNames[run.kinds[i]]} ${text(6 * i)} to ${text(6 * i + 3)}`;
    }
    const b = run.blocks[found.block - 1];
    return `${blockText(run, found.block)}: ${b.slice(0, 3).map(millimetres).join(" ")} to ${b.slice(3).map(millimetres).join(" ")}`;
  }
  point(sheet, canvas, event) {
    const box = canvas.getBoundingClientRect(), found = sheet.find(event.clientX - box.left, event.clientY - box.top), tip = $("tip");
    canvas.classList.toggle("found", !!(found && found.piece !== undefined));
    tip.hidden = !found;
    if (!found) return;
    const own = $("views").getBoundingClientRect();
    tip.textContent = this.tipOf(found);
    tip.style.left = Math.min(event.clientX - own.left + 12, own.width - tip.offsetWidth - 4) + "px";
    tip.style.top = event.clientY - own.top + 16 + "px";
  }
  drag(sheet, dx, dy) {
    if (sheet.sheet) {
      this.camera.centre[sheet.sheet.right] -= dx / this.camera.scale;
      this.camera.centre[sheet.sheet.up] += dy / this.camera.scale;
      this.loose();
    } else this.solid.turn(-dx * 0.01, dy * 0.008);
    this.draw();
  }
  listenTo(sheet) {
    const canvas = sheet.sheet ? sheet.canvas : sheet.over, pointers = new Map();
    let travelled = 0, apart = 0;
    canvas.addEventListener("pointerdown", (event) => {
      pointers.set(event.pointerId, [event.clientX, event.clientY]);
      if (pointers.size === 1) travelled = 0;
      apart = 0;
      canvas.setPointerCapture(event.pointerId);
    });
    canvas.addEventListener("pointermove", (event) => {
      const old = pointers.get(event.pointerId);
      if (!old) return this.point(sheet, canvas, event);
      const dx = event.clientX - old[0], dy = event.clientY - old[1], box = canvas.getBoundingClientRect();
      travelled += Math.abs(dx) + Math.abs(dy);
      pointers.set(event.pointerId, [event.clientX, event.clientY]);
      $("tip").hidden = true;
      if (pointers.size === 2) {
        const [[a, b], [c, d]] = [...pointers.values()], long = Math.hypot(c - a, d - b);
        if (apart) this.zoom(long / apart, sheet, (a + c) / 2 - box.left, (b + d) / 2 - box.top);
        apart = long;
      } else if (travelled > 4) this.drag(sheet, dx, dy);
    });
    const end = (event) => { pointers.delete(event.pointerId); };
    canvas.addEventListener("pointerup", (event) => {
      if (pointers.size === 1 && travelled < 5) {
        const box = canvas.getBoundingClientRect(), found = sheet.find(event.clientX - box.left, event.clientY - box.top);
        if (found && found.piece !== undefined) this.whenStepped(this.run.pieceStep[found.piece]);
      }
      end(event);
    });
    canvas.addEventListener("pointercancel", end);
    canvas.addEventListener("pointerleave", () => { $("tip").hidden = true; });
    canvas.addEventListener("wheel", (event) => {
      event.preventDefault();
      const box = canvas.getBoundingClientRect();
      this.zoom(Math.exp(-event.deltaY * 0.0015), sheet, event.clientX - box.left, event.clientY - box.top);
    }, { passive: false });
  }
}
