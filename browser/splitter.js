// A bar between two panes: dragged, or moved by the arrow keys; Home and End make one of the panes as large as may be, Enter puts it where it was at first.

class Splitter {
  // The pane before the bar has so many hundredths of the room, in a property of `main`.
  constructor(id, property, first) {
    this.bar = document.getElementById(id);
    this.property = property;
    this.first = first;
    this.isUpright = this.bar.getAttribute("aria-orientation") === "vertical";
    this.bar.setAttribute("aria-valuemin", "0");
    this.bar.setAttribute("aria-valuemax", "100");
    this.bar.addEventListener("pointerdown", (event) => this.drag(event));
    this.bar.addEventListener("dblclick", () => this.set(this.first));
    this.bar.addEventListener("keydown", (event) => this.key(event));
    this.set(first);
  }
  set(share) {
    this.share = Math.max(0, Math.min(100, share));
    this.bar.setAttribute("aria-valuenow", String(Math.round(this.share)));
    this.bar.parentElement.style.setProperty(this.property, this.share / 100);
  }
  drag(event) {
    event.preventDefault();
    this.bar.focus();
    this.bar.setPointerCapture(event.pointerId);
    document.body.classList.add("dragging");
    this.bar.onpointermove = (it) => {
      const box = this.bar.parentElement.getBoundingClientRect();
      this.set(this.isUpright ? (100 * (it.clientX - box.left)) / box.width : (100 * (it.clientY - box.top)) / box.height);
    };
    this.bar.onpointerup = this.bar.onpointercancel = () => {
      this.bar.onpointermove = null;
      document.body.classList.remove("dragging");
    };
  }
  key(event) {
    const to = { ArrowLeft: this.share - 4, ArrowUp: this.share - 4, ArrowRight: this.share + 4, ArrowDown: this.share + 4, Home: 0, End: 100, Enter: this.first }[event.key];
    if (to === undefined) return;
    event.preventDefault();
    this.set(to);
  }
}
