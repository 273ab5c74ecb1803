// Elements of the page: made with texts as texts, and lists of which only what changes is made anew.

const $ = (id) => document.getElementById(id);

function element(tag, text, className) {
  const it = document.createElement(tag);
  if (text !== undefined) it.textContent = text;
  if (className) it.className = className;
  return it;
}
const cell = (text, className) => element("td", text, className);
function rowHead(name) {
  const head = element("th", name);
  head.scope = "row";
  return head;
}

// A list of which the rows in view are made, and those of a few pieces beside them; the other pieces are as high as they were, or as so many rows are.
const ROWS_OF_PIECE = 25;
class Rows {
  // `box` scrolls, `holder` takes the pieces, which are elements of this tag; `make` makes the row of a number, and `update` sets what of it hangs on the step.
  constructor(box, holder, tag, high, make, update) {
    Object.assign(this, { box, holder, tag, high, make, update, count: 0, pieces: [], isOnPaper: false });
    this.watch = new IntersectionObserver((seen) => { for (const it of seen) this.seen(it.target, it.isIntersecting); }, { root: box, rootMargin: "150px" });
  }
  // So many rows, as they are behind a step. Where there are more or fewer than before, the last ones are in view.
  show(count, k, isGrowing = false) {
    this.k = k;
    const isOther = count !== this.count;
    this.count = count;
    while (this.pieces.length * ROWS_OF_PIECE < count) this.add();
    while ((this.pieces.length - 1) * ROWS_OF_PIECE >= count && this.pieces.length) this.drop();
    this.pieces.forEach((it, i) => {
      if (it.isSeen || this.isOnPaper || i === 0 || (isGrowing && i >= this.pieces.length - 2)) this.fill(it); else this.empty(it);
    });
    if (isGrowing && isOther) this.box.scrollTop = 1e9;
  }
  // All rows are other ones.
  forget() {
    while (this.pieces.length) this.drop();
    this.count = 0;
  }
  add() {
    const place = document.createElement(this.tag), piece = { place, from: this.pieces.length * ROWS_OF_PIECE, rows: null, high: 0, isSeen: false };
    place.piece = piece;
    this.pieces.push(piece);
    this.holder.append(place);
    this.watch.observe(place);
  }
  drop() {
    const { place } = this.pieces.pop();
    this.watch.unobserve(place);
    place.remove();
  }
  seen({ piece }, isIn) {
    if (isIn === piece.isSeen) return;
    piece.isSeen = isIn;
    if (isIn) this.fill(piece);
  }
  fill(piece) {
    const { rows = [] } = piece, wanted = Math.min(ROWS_OF_PIECE, this.count - piece.from), own = rows || [];
    if (rows === null) piece.place.replaceChildren();
    while (own.length > wanted) own.pop().remove();
    while (own.length < wanted) {
      own.push(this.make(piece.from + own.length));
      piece.place.append(own[own.length - 1]);
    }
    piece.rows = own;
    own.forEach((row, i) => this.update(row, piece.from + i, this.k));
  }
  empty(piece) {
    const wanted = Math.min(ROWS_OF_PIECE, this.count - piece.from), high = wanted * this.high;
    if (piece.rows === null && piece.high === high) return;
    const room = document.createElement(this.tag === "tbody" ? "tr" : "li");
    room.style.height = high + "px";
    room.className = "room";
    piece.rows = null;
    piece.high = high;
    piece.place.replaceChildren(room);
  }
  forPaper(is) {
    this.isOnPaper = is && this.count <= 2000;
  }
}

// Sets a text or a class where it is another one than stands there.
function setText(it, text) {
  if (it.textContent !== text) it.textContent = text;
}
function setClass(it, className) {
  if (it.className !== className) it.className = className;
}
