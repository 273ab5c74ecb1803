// The time line: how high the probe is behind each step, with what happens. What stays is drawn once; a step draws how far it has come, and its mark.

class Profile {
  constructor(run, canvas) {
    this.run = run;
    this.canvas = canvas;
    this.drawnFor = "";
    this.layers = ["all", "past"].map(() => document.createElement("canvas"));
  }
  x(k) {
    const pad = 8;
    return pad + (this.run.length ? ((this.width - 2 * pad) * k) / this.run.length : 0);
  }
  drawFixed(colours, ratio) {
    const wanted = [this.width, this.height, ratio, colours.paper].join();
    if (this.drawnFor === wanted) return;
    this.drawnFor = wanted;
    this.layers.forEach((layer, i) => {
      layer.width = this.canvas.width = Math.round(this.width * ratio);
      layer.height = this.canvas.height = Math.round(this.height * ratio);
      const g = layer.getContext("2d");
      g.scale(ratio, ratio);
      g.globalAlpha = i ? 0.75 : 0.28;
      this.drawHeights(g, i ? colours.m : colours.muted);
    });
    const marks = (this.marks = document.createElement("canvas"));
    [marks.width, marks.height] = [this.canvas.width, this.canvas.height];
    const g = marks.getContext("2d");
    g.scale(ratio, ratio);
    this.drawMarks(g, colours);
  }
  drawHeights(g, colour) {
    const { run, width: w, height: h } = this, n = run.length, inner = w - 16;
    let low = Infinity, high = -Infinity;
    for (let k = 0; k <= n; k++) {
      const z = run.position[3 * k + 2];
      if (z < low) low = z;
      if (z > high) high = z;
    }
    const y = (z) => h - 7 - (high > low ? ((z - low) / (high - low)) * (h - 16) : (h - 16) / 2), step = Math.max(1, n / (2 * inner));
    g.beginPath();
    g.moveTo(this.x(0), h - 4);
    for (let k = 0; k < n; k += step) {
      const a = Math.round(k), b = Math.min(n, Math.round(k + step));
      let least = Infinity, most = -Infinity;
      for (let i = a; i < Math.max(b, a + 1); i++) {
        const z = run.position[3 * i + 2];
        if (z < least) least = z;
        if (z > most) most = z;
      }
      g.lineTo(this.x(a), y(most));
      if (step > 1) g.lineTo(this.x(a), y(least));
    }
    g.lineTo(this.x(n), y(run.position[3 * n + 2]));
    g.lineTo(this.x(n), h - 4);
    g.closePath();
    g.fillStyle = colour;
    g.fill();
  }
  drawMarks(g, colours) {
    const { run, height: h } = this, many = run.touches.length > 400, stopLine = stopLineOf(run);
    g.fillStyle = colours.s;
    for (const touch of run.touches) {
      if (many) g.fillRect(this.x(touch.step) - 0.5, 1, 1, 3);
      else {
        g.beginPath();
        g.arc(this.x(touch.step), 4, 2.5, 0, 7);
        g.fill();
      }
    }
    g.fillStyle = colours.ink;
    for (const k of run.output.steps) g.fillRect(this.x(k) - 0.5, h - 4, 1, 4);
    g.strokeStyle = g.fillStyle = colours.danger;
    for (const box of run.boxes) for (const contact of box.contacts) if (contact.step > 0) g.fillRect(this.x(contact.step) - 2, 0, 4, 5);
    if (stopLine) {
      const x = this.x(run.stop.step);
      g.lineWidth = 2.4;
      g.beginPath(); g.moveTo(x - 4, 3); g.lineTo(x + 4, 11); g.moveTo(x + 4, 3); g.lineTo(x - 4, 11); g.stroke();
    }
  }
  draw(colours, k, ratio) {
    this.width = this.canvas.clientWidth;
    this.height = this.canvas.clientHeight;
    if (!this.width || !this.height) return;
    this.drawFixed(colours, ratio);
    const g = this.canvas.getContext("2d"), { width: w, height: h } = this.canvas, to = Math.round(this.x(k) * ratio);
    g.setTransform(1, 0, 0, 1, 0, 0);
    g.clearRect(0, 0, w, h);
    g.drawImage(this.layers[0], 0, 0);
    if (to > 0) g.drawImage(this.layers[1], 0, 0, to, h, 0, 0, to, h);
    g.drawImage(this.marks, 0, 0);
    g.setTransform(ratio, 0, 0, ratio, 0, 0);
    g.fillStyle = colours.ink;
    g.fillRect(this.x(k) - 0.75, 0, 1.5, this.height);
  }
}
