// The list of days: only the rows in sight stand in the table, so that a list of every day scrolls as a short one does.
const ROW_HEIGHT = 33;
const MARGIN = 20;

class List {
  constructor(linesOfDays, chose) {
    this.linesOfDays = linesOfDays;
    this.chose = chose;
    this.box = byId("list");
    this.days = new Uint32Array(0);
    this.chosen = -1;
    this.columns = WORDS.columns;
    byId("columns").append(...this.columns.map((name) => made("th", { scope: "col", textContent: name })));
    this.box.addEventListener("scroll", () => this.draw());
    new ResizeObserver(() => this.draw()).observe(this.box);
    byId("rows").addEventListener("click", (event) => {
      const row = event.target.closest("tr");
      if (row) this.choose(Number(row.dataset.index), event);
    });
    byId("rows").addEventListener("keydown", (event) => this.key(event));
  }

  show(days, names) {
    this.days = days;
    this.names = names;
    this.chosen = -1;
    this.current = 0;
    this.drawn = null;
    this.box.scrollTop = 0;
    this.box.querySelector("table").setAttribute("aria-rowcount", days.length + 1);
    this.draw();
  }

  row(line, index) {
    const [day, date, iso, weekdayNumber, , tithi, , nakshatra, , yoga, , karana] = line.split(",");
    const named = (word, number) => made("td", {}, made("span", { className: "name", textContent: this.names[word][number].shown }), " ", made("span", { className: "number", textContent: number }));
    const button = made("button", { type: "button", textContent: day, tabIndex: index === this.current ? 0 : -1 });
    const row = made("tr", { "aria-rowindex": index + 2 }, made("td", {}, button), made("td", { textContent: date }), made("td", { textContent: iso }), made("td", { textContent: WORDS.weekdays[weekdayNumber] }),
      named("tithi", tithi), named("nakshatra", nakshatra), named("yoga", yoga), named("karana", karana));
    row.dataset.index = index;
    row.dataset.day = day;
    if (index === this.chosen) {
      row.className = "chosen";
      button.setAttribute("aria-current", "true");
    }
    return row;
  }

  // The rows in sight and some on both sides.
  draw() {
    const first = Math.max(0, Math.floor(this.box.scrollTop / ROW_HEIGHT) - MARGIN);
    const last = Math.min(this.days.length, Math.ceil((this.box.scrollTop + this.box.clientHeight) / ROW_HEIGHT) + MARGIN);
    const state = `${first} ${last} ${this.chosen} ${this.current}`;
    if (state === this.drawn || (this.days.length && !this.box.clientHeight)) return;
    this.drawn = state;
    const focused = byId("rows").contains(document.activeElement);
    const lines = last > first ? this.linesOfDays(this.days.subarray(first, last)).split("\n") : [];
    const rows = [];
    for (let index = first; index < last; index++) rows.push(this.row(lines[index - first], index));
    byId("above").firstChild.firstChild.style.height = `${first * ROW_HEIGHT}px`;
    byId("below").firstChild.firstChild.style.height = `${(this.days.length - last) * ROW_HEIGHT}px`;
    byId("rows").replaceChildren(...rows);
    if (focused) this.focus();
  }

  focus() {
    const row = byId("rows").querySelector(`tr[data-index="${this.current}"] button`);
    if (row) row.focus({ preventScroll: true });
  }

  moveTo(index, focus) {
    this.current = Math.min(Math.max(index, 0), this.days.length - 1);
    const head = this.box.querySelector("thead").offsetHeight;
    const top = this.current * ROW_HEIGHT;
    if (top < this.box.scrollTop) this.box.scrollTop = top;
    else if (top + ROW_HEIGHT + head > this.box.scrollTop + this.box.clientHeight) this.box.scrollTop = top + ROW_HEIGHT + head - this.box.clientHeight;
    this.draw();
    if (focus) this.focus();
  }

  // Chooses a row, by a click or a key where there is an event (a key's click has no detail).
  choose(index, event = null) {
    this.chosen = index;
    this.moveTo(index, event !== null);
    if (event) this.chose(this.days[index], event.detail === 0);
  }

  // Shows a day as chosen, where the list has it.
  mark(day) {
    let [low, high] = [0, this.days.length];
    while (low < high) {
      const middle = (low + high) >> 1;
      if (this.days[middle] < day) low = middle + 1;
      else high = middle;
    }
    if (this.days[low] === day) this.choose(low);
    else {
      this.chosen = -1;
      this.draw();
    }
  }

  key(event) {
    const page = Math.max(1, Math.floor(this.box.clientHeight / ROW_HEIGHT) - 2);
    const steps = { ArrowDown: 1, ArrowUp: -1, PageDown: page, PageUp: -page, Home: -this.days.length, End: this.days.length };
    if (!(event.key in steps)) return;
    event.preventDefault();
    this.moveTo(this.current + steps[event.key], true);
  }
}
