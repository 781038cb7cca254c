"use strict";
// The transcript at the foot of the page. Only the rows that can be seen are in the document.

const ROW = 18;
// Browsers let no element be much higher than this.
const HIGHEST = 12e6;

class Lines {
  constructor(lines) {
    this.lines = lines;
    this.scroll = document.getElementById("scroll");
    this.rows = document.getElementById("rows");
    this.here = 0;
    this.first = -1;
    document.getElementById("spacer").style.height = `${this.height()}px`;
    this.scroll.addEventListener("scroll", () => this.draw());
    window.addEventListener("resize", () => this.draw(true));
    document.getElementById("goto").addEventListener("change", (e) => this.go(Number(e.target.value)));
    document.getElementById("find").addEventListener("keydown", (e) => {
      if (e.key === "Enter") { e.preventDefault(); this.find(e.target.value); }
    });
    document.getElementById("fold").addEventListener("click", (e) => {
      e.target.textContent = document.body.classList.toggle("folded") ? "unfold" : "fold";
      this.draw(true);
    });
    this.draw(true);
  }

  height() { return Math.min(this.lines.length * ROW, HIGHEST); }

  // How many rows fit.
  fit() { return Math.max(1, Math.ceil(this.scroll.clientHeight / ROW)); }

  // The first row that is seen at a place of the scroll bar.
  firstAt(top) {
    const way = this.height() - this.scroll.clientHeight;
    const rows = Math.max(0, this.lines.length - Math.floor(this.scroll.clientHeight / ROW));
    return way > 0 ? Math.round(Math.min(1, top / way) * rows) : 0;
  }

  draw(anew) {
    const first = this.firstAt(this.scroll.scrollTop);
    this.rows.style.top = `${this.scroll.scrollTop}px`;
    if (first === this.first && !anew) return;
    this.first = first;
    const [begin, end] = this.eventOf(this.here);
    const shown = [];
    for (let row = first; row < Math.min(this.lines.length, first + this.fit()); row++) {
      const line = document.createElement("div");
      const number = document.createElement("span");
      number.className = "number";
      number.textContent = row + 1;
      line.append(number, this.lines[row]);
      if (this.lines[row].startsWith("event")) line.classList.add("event");
      if (this.here && row + 1 >= begin && row + 1 <= end) line.classList.add("part");
      if (row + 1 === this.here) line.classList.add("here");
      line.dataset.line = row + 1;
      shown.push(line);
    }
    this.rows.replaceChildren(...shown);
  }

  // The first and the last line of the event that a line is of.
  eventOf(line) {
    let begin = line;
    while (begin > 1 && this.lines[begin - 1] && this.lines[begin - 1].startsWith(" ")) begin--;
    let end = Math.max(begin, 1);
    while (end < this.lines.length && this.lines[end].startsWith(" ")) end++;
    return [begin, end];
  }

  go(line) {
    if (!(line >= 1 && line <= this.lines.length)) return;
    this.here = line;
    if (document.body.classList.contains("folded")) document.getElementById("fold").click();
    const way = this.height() - this.scroll.clientHeight;
    const rows = Math.max(1, this.lines.length - Math.floor(this.scroll.clientHeight / ROW));
    this.scroll.scrollTop = Math.max(0, Math.min(1, (line - 4) / rows)) * Math.max(0, way);
    document.getElementById("goto").value = line;
    this.draw(true);
  }

  find(text) {
    const found = document.getElementById("found");
    if (!text) { found.textContent = ""; return; }
    const count = this.lines.length;
    for (let step = 0; step < count; step++) {
      const row = (this.here + step) % count;
      if (this.lines[row].includes(text)) {
        found.textContent = row < this.here ? "from the beginning again" : "";
        this.go(row + 1);
        return;
      }
    }
    found.textContent = "not found";
  }
}
