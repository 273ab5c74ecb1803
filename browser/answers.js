// What may be asked for beside the steps: words as on a command line, and how the answer is shown and saved.

// Each command: its words behind the name, the end of the name of its file, whether it takes the options of a whole text, and what it needs.
const commands = {
  run: { words: (it) => [it.program, it.part, "--steps", it.steps], end: ".txt", isWhole: true },
  why: { words: (it) => [it.program, it.part, "--steps", it.steps], end: ".txt", isWhole: true },
  contacts: { words: (it) => [it.program, it.part, "--steps", it.steps], end: ".txt", isWhole: true },
  part: { words: (it) => [it.part], end: ".txt" },
  points: { words: (it) => [it.program, it.part, "--steps", it.steps], end: ".csv", isWhole: true },
  margin: { words: (it) => [it.program, it.part, "--steps", it.steps], end: ".txt", isWhole: true },
  clearance: { words: (it) => [it.program, it.part, it.probe, "--steps", it.steps], end: ".txt", needsProbe: true, isWhole: true },
  picture: { words: (it) => [it.program, it.part, "--steps", it.steps], end: ".svg", isDrawing: true, isWhole: true },
  sheet: { name: "picture", words: (it) => [it.program, it.part, "--sheet", "--steps", it.steps], end: ".svg", isDrawing: true, isWhole: true },
  survey: { words: (it) => [it.program, "--part", it.part], end: ".txt" },
  trace: { words: (it) => [it.program, it.part, "--steps", it.steps], end: ".csv", isWhole: true },
  list: { words: (it) => [it.program], end: ".lst" },
  check: { words: (it) => ["--all", it.program], end: ".txt" },
};

// The words of a call, with the options of a whole text where one is run and the command takes them.
function wordsOf(command, given, whole) {
  const it = commands[command];
  return [it.name || command, ...it.words(given), ...(whole && it.isWhole ? whole : [])];
}

// A drawing as a picture: a text of SVG that is shown as an image runs no script and loads nothing.
class Drawing {
  constructor(box) {
    this.box = box;
    this.url = null;
  }
  show(bytes) {
    if (this.url) URL.revokeObjectURL(this.url);
    this.url = null;
    this.box.hidden = bytes === null;
    this.box.replaceChildren();
    if (bytes === null) return;
    this.url = URL.createObjectURL(new Blob([bytes], { type: "image/svg+xml" }));
    const image = new Image();
    image.alt = "The workpiece and the way of the probe, drawn";
    image.src = this.url;
    image.onclick = () => this.box.classList.toggle("large");
    this.box.append(image);
  }
}
