// A producer's text as it stands: the form for what the text doesn't say, and the words of it for vcm.

// The fields: their names as options, what they say, and what stands in one for example.
const wholeFields = [
  ["frame", "Frames", "where a frame lies on the machine, and how it is turned there", "PART=150,100,60 or PART=150,100,60,Z90"],
  ["given", "Answers", "what the operator answers where the text asks for a variable", "V=5 OK=.TRUE."],
  ["apprch", "Approach", "in millimetres, where no SNSET says it", "2"],
  ["retrct", "Way back", "in millimetres, where no SNSET says it", "2"],
  ["search", "Search", "in millimetres, where no SNSET says it", "5"],
];

// The boxes: their names as options, what they say, and why.
const wholeBoxes = [
  ["auto", "no points by AUTO", "the machine takes no points of its own under MODE/AUTO"],
  ["approach", "points are approached only", "points are approached and left, and not touched"],
];

// The options of a whole text: each word of the first two fields is an option of its own.
function wholeWords(whole) {
  const words = ["--whole"];
  for (const [name] of wholeFields) for (const it of (whole[name] || "").trim().split(/\s+/).filter(Boolean)) words.push("--" + name, it);
  return [...words, ...wholeBoxes.filter(([name]) => whole[name]).map(([name]) => "--" + name)];
}

class WholeForm {
  constructor(form, list, whenChanged, whenLeft, whenLine) {
    Object.assign(this, { form, list, whenLine });
    const fields = wholeFields.map(([name, title, about, sample]) => {
      const label = element("label", title + " "), input = document.createElement("input");
      Object.assign(input, { name, placeholder: sample, spellcheck: false, autocomplete: "off" });
      label.title = about;
      label.append(input);
      return label;
    });
    const boxes = wholeBoxes.map(([name, title, about]) => {
      const label = element("label"), box = document.createElement("input");
      Object.assign(box, { type: "checkbox", name });
      label.title = about;
      label.append(box, " " + title);
      return label;
    });
    const leave = element("button", "Leave");
    leave.type = "button";
    leave.title = "take the text as a program of the subset again";
    leave.onclick = whenLeft;
    form.append(element("p", "A producer's text, run as it stands: what isn't known where a motion stands isn't tried. What the text doesn't say may be said here.", "about"), ...fields, ...boxes, leave);
    form.oninput = () => whenChanged(this.values);
    form.onsubmit = (event) => event.preventDefault();
  }
  get values() {
    const given = Object.fromEntries(wholeFields.map(([name]) => [name, this.form.elements[name].value]));
    return { ...given, ...Object.fromEntries(wholeBoxes.map(([name]) => [name, this.form.elements[name].checked ? "on" : ""])) };
  }
  show(whole) {
    this.form.hidden = !whole;
    if (!whole) return;
    for (const [name] of wholeFields) if (this.form.elements[name].value !== (whole[name] || "")) this.form.elements[name].value = whole[name] || "";
    for (const [name] of wholeBoxes) this.form.elements[name].checked = Boolean(whole[name]);
  }
  // What is tried of the text and what isn't, each cause with its lines, which are links.
  tell(tried, untried) {
    const items = untried.map((it) => {
      const item = element("li", it.kind === "from" ? "not tried from " : `${it.kind} ${it.count}: `);
      [...new Set(it.lines)].slice(0, 40).forEach((line) => {
        const link = element("button", it.kind === "from" ? `line ${line}` : String(line), "link");
        link.type = "button";
        link.onclick = () => this.whenLine(line);
        item.append(link, " ");
      });
      item.append(it.kind === "from" ? `on, ${it.cause}` : it.cause && `(${it.cause})`);
      return item;
    });
    this.list.replaceChildren(...(tried ? [element("li", tried, "tried")] : []), ...items);
    this.list.hidden = this.list.children.length === 0;
  }
}
