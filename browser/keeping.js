// Texts in the address, and over a reload. Both stay in the browser: what stands in an address behind `#` is sent to nobody.

const KEY = "vcm.texts", MARK = "#texts=";
// The most bytes of the texts in an address once they are unpacked.
const MOST_LINKED = 33554432;

async function through(stream, bytes) {
  const reader = new Blob([bytes]).stream().pipeThrough(stream).getReader(), parts = [];
  for (let it, length = 0; !(it = await reader.read()).done; parts.push(it.value)) if ((length += it.value.length) > MOST_LINKED) throw new Error("it holds too much");
  return new Uint8Array(await new Blob(parts).arrayBuffer());
}

// The address behind `#` that holds these texts: deflate's bytes in base64.
async function linked(texts) {
  const packed = await through(new CompressionStream("deflate-raw"), new TextEncoder().encode(JSON.stringify(texts)));
  let letters = "";
  for (let i = 0; i < packed.length; i += 32768) letters += String.fromCharCode(...packed.subarray(i, i + 32768));
  return MARK + btoa(letters).replaceAll("+", "-").replaceAll("/", "_").replace(/=+$/, "");
}

// The texts of an address, or null where it holds none.
async function unlinked(address) {
  if (!address.startsWith(MARK)) return null;
  const packed = Uint8Array.from(atob(address.slice(MARK.length).replaceAll("-", "+").replaceAll("_", "/")), (it) => it.charCodeAt(0));
  return checked(JSON.parse(new TextDecoder().decode(await through(new DecompressionStream("deflate-raw"), packed))));
}

// Texts are taken as texts, each with the name of its file, and options as the words of a form; anything else is left out.
function checked(given) {
  const text = (it) => (typeof it === "string" ? it : "");
  const one = (it) => ({ text: text(it && it.text), name: text(it && it.name).slice(0, 200) });
  if (!given || typeof given !== "object" || !given.program || !given.part) throw new Error("it holds no texts");
  const whole = given.whole && typeof given.whole === "object" ? Object.fromEntries(Object.entries(given.whole).map(([name, it]) => [name.slice(0, 40), text(it).slice(0, 4000)])) : null;
  return { program: one(given.program), part: one(given.part), probe: one(given.probe), whole };
}

// Keeps texts for this tab, and for the next one that is opened. Answers whether they are kept: a browser may have no room for them, or keep nothing.
function keep(texts) {
  const stores = ["sessionStorage", "localStorage"].map((name) => {
    try {
      if (texts) window[name].setItem(KEY, JSON.stringify(texts));
      else window[name].removeItem(KEY);
      return true;
    } catch (refused) {
      return false;
    }
  });
  return stores.some((it) => it);
}

// The texts that are kept: those of this tab, or else those that were kept last.
function kept() {
  for (const name of ["sessionStorage", "localStorage"]) {
    try {
      const found = window[name].getItem(KEY);
      if (found) return checked(JSON.parse(found));
    } catch (refused) { /* nothing is kept, or no texts of this page */ }
  }
  return null;
}
