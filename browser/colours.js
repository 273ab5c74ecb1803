// The colours of a line: what is a word of the language, a label, a text or a comment. A line is cut into pieces, each with its class.

// A line longer than this is shown without colours.
const MOST_COLOURED = 2000;

function piecesBy(pattern, text, classOf) {
  const pieces = [];
  let at = 0;
  for (const it of text.matchAll(pattern)) {
    if (it.index > at) pieces.push(["", text.slice(at, it.index)]);
    pieces.push([classOf(it), it[0]]);
    at = it.index + it[0].length;
  }
  if (at < text.length) pieces.push(["", text.slice(at)]);
  return pieces;
}

const dmis = /(?<comment>\$\$.*$)|(?<text>'[^']*'?)|(?<label>\b[A-Z]{1,6}\(\w+\)|^\s*\(\w+\))|(?<word>(?:(?<=^\s*)|(?<==\s*))[A-Z][A-Z0-9]*(?=\/|\s*$))|(?<test>\.[A-Z]{2,5}\.)/gi;
const toml = /(?<comment>#.*$)|(?<text>"(?:[^"\\]|\\.)*"?|'[^']*'?)|(?<label>^\s*\[\[?.*?\]\]?)|(?<word>^\s*[\w-]+(?=\s*=))/g;

const colourings = { dmis, toml };
const colouredLine = (text, language) => (text.length > MOST_COLOURED ? [["", text]] : piecesBy(colourings[language], text, (it) => Object.keys(it.groups).find((name) => it.groups[name] !== undefined)));

// The pieces of a line, cut once more at ranges that have classes of their own: what is found, what is at fault.
function cut(pieces, ranges) {
  if (ranges.length === 0) return pieces;
  const edges = [...new Set(ranges.flatMap((it) => [it.from, it.to]))].sort((a, b) => a - b), made = [];
  let at = 0;
  for (const [name, text] of pieces) {
    let from = at;
    const end = at + text.length;
    for (const edge of [...edges.filter((it) => it > at && it < end), end]) {
      const extra = ranges.filter((it) => it.from <= from && it.to >= edge).map((it) => it.name);
      made.push([[name, ...extra].join(" ").trim(), text.slice(from - at, edge - at)]);
      from = edge;
    }
    at = end;
  }
  return made;
}
