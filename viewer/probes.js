// What hangs on the machine: the boxes of one probe, or of several of which a variable of the program chooses one, where they meet blocks, and the turns of the head between them.

// Lines `Q NAME LOW HIGH` are boxes of a probe, counted from the centre of its tip; boxes of one name are one body. Of several probes each has a group, which `U NAME NUMBER`
// begins, with `D NAME HALF` for half the width of its tip and `G NAME PLACE` for the pivot, counted from the tip; lines `V NAME LOW HIGH` are what turns, counted from the pivot,
// and `X NAME` names the variable. The lines of `vcm clearance` follow: contacts, and how much room is left.
function readBoxes(run, text) {
  const bodies = new Map(), probes = new Map();
  let variable = null, probe = null;
  const part = (name, owner, numbers) => {
    const short = owner ? name.slice(owner.name.length + 1) : name;
    const own = bodies.get(name) || { name, short, title: owner ? `${short} of ${owner.name}` : name, probe: owner, isSwing: false, parts: [], contacts: [], room: null };
    own.parts.push({ low: numbers.slice(0, 3), high: numbers.slice(3, 6) });
    bodies.set(name, own);
    return own;
  };
  for (const row of text.split("\n")) {
    const words = row.split(" "), numbers = words.slice(2).map(Number);
    switch (words[0]) {
      case "X": variable = words[1].toUpperCase(); break;
      case "U": probe = { name: words[1], number: numbers[0], tip: run.tip, pivot: [0, 0, 0], ways: null }; probes.set(probe.number, probe); break;
      case "D": probe.tip = numbers[0]; break;
      case "G": probe.pivot = numbers; break;
      case "Q": part(words[1], probe, numbers); break;
      case "V": part(words[1], null, numbers).isSwing = true; break;
      case "probe": for (const it of probes.values()) if (it.name === words[1]) it.ways = words[2] === "ways" ? Number(words[3]) : 0; break;
      case "box": case "swing": if (words[2] === "clear") bodies.get(words[1]).room = Number(words[3]); break;
      case "contact": readContact(run, bodies.get(words[1]), words); break;
      case "beyond": if (words.length > 2) run.beyond.push({ kind: words[1], line: Number(words[5]), step: Number(words[7]) - run.from, at: words.slice(9, 12).map(micrometres) }); break;
      case "no": if (words[1] === "probe") run.lost = { value: words[2], line: Number(words[6]), step: Number(words[8]) - run.from }; break;
    }
  }
  run.boxes = [...bodies.values()];
  if (probes.size) readTurns(run, variable, probes);
}
function readContact(run, body, words) {
  const [, name, kind, , block, , permille, , , , line, , step, , x, y, z] = words;
  const contact = { name, kind, block: Number(block), permille: Number(permille), line: Number(line), step: Number(step) - run.from, at: [x, y, z].map(micrometres) };
  body.contacts.push(contact);
  run.metSteps.set(contact.step, [...(run.metSteps.get(contact.step) || []), { box: body, contact }]);
  if (!run.firstMet || contact.step < run.firstMet.step) run.firstMet = contact;
}

// The probe that is on behind each step: the last one whose number the variable had. Where another one hung there before, the head turns: the pivot stays, and the tip is put.
function readTurns(run, variable, probes) {
  const own = run.variables.get(variable), of = (value) => probes.get(Number(value));
  run.probes = { all: [...probes.values()], variable, on: new Changes(own && of(own.changes.first) ? of(own.changes.first) : null) };
  if (!own) return;
  own.changes.steps.forEach((step, i) => {
    const before = run.probes.on.at(step), now = of(own.changes.values[i]);
    if (!now || now === before) return;
    run.probes.on.add(step, now);
    if (before === null) return;
    const from = positionAt(run, step - 1), pivot = from.map((x, k) => x + before.pivot[k]), to = pivot.map((x, k) => x - now.pivot[k]);
    run.turns.set(step, { step, before, now, from, pivot, to });
  });
}

// ---- what is asked of it

const NONE = [];

// the probe that is on behind a step, of several; null where none is on, or there is one alone
const probeAt = (run, k) => (run.probes ? run.probes.on.at(k) : null);
// half the width of the tip behind a step
const tipAt = (run, k) => (probeAt(run, k) || run).tip;
// the turn of the head in a step, or nothing
const turnIn = (run, k) => run.turns.get(k);
// the bodies that hang on the machine behind a step
const bodiesAt = (run, k) => (run.probes ? run.boxes.filter((it) => !it.isSwing && it.probe === probeAt(run, k)) : run.boxes);

// the contacts of bodies in a step, each with its body
const contactsIn = (run, k) => run.metSteps.get(k) || NONE;

// the blocks that are met in a step, by the tip or by a body
const metIn = (run, k) => [...new Set([...(run.contact && run.contact.step === k ? [run.contact.block] : []), ...contactsIn(run, k).map((it) => it.contact.block)])];

// where the tip is shown behind a step: where it, or a body that is fixed to it, met a block first; behind a turn where it was put
function shownAt(run, k) {
  const met = contactsIn(run, k).find((it) => !it.box.isSwing), turn = turnIn(run, k);
  return met ? met.contact.at : run.contact && run.contact.step === k ? run.contact.at : turn ? turn.to : positionAt(run, k);
}

// The way of the tip in a turn, as points about the pivot.
const PLACES_OF_TURN = 16;
function arcOf({ from, to, pivot }) {
  const [a, b] = [from, to].map((at) => at.map((x, k) => x - pivot[k])), [p, q] = [a, b].map((it) => Math.hypot(...it) || 1);
  const angle = Math.acos(Math.max(-1, Math.min(1, a.reduce((sum, x, k) => sum + (x / p) * (b[k] / q), 0)))), sine = Math.sin(angle);
  return Array.from({ length: PLACES_OF_TURN + 1 }, (_, i) => {
    const t = i / PLACES_OF_TURN, far = p + t * (q - p);
    // directions that are equal or opposed have no one turn between them: there the way is straight
    if (sine < 1e-6) return pivot.map((x, k) => x + a[k] + t * (b[k] - a[k]));
    return pivot.map((x, k) => x + far * ((Math.sin((1 - t) * angle) / sine) * (a[k] / p) + (Math.sin(t * angle) / sine) * (b[k] / q)));
  });
}
