// The strip of eleven centuries: a mark for each day, or how many there are where they are too many to tell apart. A drag
// chooses years, on which one can zoom or which can be asked for.
const LEAST_VIEW = 60;
const STRIP_HEIGHT = 92;
const MARKS = 62;

class Strip {
  constructor(desk, chose, ask) {
    this.desk = desk;
    this.chose = chose;
    this.canvas = byId("canvas");
    this.starts = new Map();
    Object.assign(this, { days: new Uint32Array(0), chosen: null, span: [0, DAYS - 1], drag: null });
    this.all();
    this.canvas.addEventListener("pointerdown", (event) => this.down(event));
    this.canvas.addEventListener("pointermove", (event) => this.move(event));
    this.canvas.addEventListener("pointerup", (event) => this.up(event));
    this.canvas.addEventListener("keydown", (event) => this.key(event));
    new ResizeObserver(() => this.draw()).observe(this.canvas);
    byId("zoom-in").addEventListener("click", () => this.zoom(0.5));
    byId("zoom-out").addEventListener("click", () => this.zoom(2));
    byId("zoom-all").addEventListener("click", () => { this.all(); this.draw(); });
    byId("ask-years").addEventListener("click", () => ask(this.first, this.last));
  }

  all() {
    this.view(0, DAYS - 1);
  }

  view(first, last) {
    const days = Math.min(DAYS, Math.max(LEAST_VIEW, last - first + 1));
    this.first = Math.round(Math.min(Math.max(0, first), DAYS - days));
    this.last = this.first + Math.round(days) - 1;
  }

  show(days, chosen, span = [0, DAYS - 1]) {
    Object.assign(this, { days, chosen, span, drag: null });
    this.draw();
  }

  mark(day) {
    this.chosen = day;
    if (day !== null && (day < this.first || day > this.last)) this.view(day - (this.last - this.first) / 2, day + (this.last - this.first) / 2);
    this.draw();
  }

  zoom(times) {
    const middle = this.chosen !== null && this.chosen >= this.first && this.chosen <= this.last ? this.chosen : (this.first + this.last) / 2;
    const half = (this.last - this.first + 1) * times / 2;
    this.view(middle - half, middle + half);
    this.draw();
  }

  // The day on which a month begins, null for none in the range.
  startOf(year, month) {
    const date = `${year}-${month}-1`;
    if (!this.starts.has(date)) this.starts.set(date, this.desk.dayOf(date));
    return this.starts.get(date);
  }

  // The marks below: centuries, years or months, as there is room for their names.
  marks(width) {
    const [year, lastYear] = [this.first, this.last].map((day) => Number(this.desk.date(day).split("-")[0]));
    const perYear = width * 365.25 / (this.last - this.first + 1);
    const step = [1, 2, 5, 10, 20, 50, 100, 200].find((years) => years * perYear >= 70) || 500;
    const marks = [];
    for (let at = Math.ceil(year / step) * step; at <= lastYear; at += step) marks.push([this.startOf(at, 1), String(at)]);
    if (perYear >= 70 * 12) for (let at = year; at <= lastYear; at++) for (let month = 2; month <= 12; month++) marks.push([this.startOf(at, month), `${at}-${month}`]);
    return marks.filter(([day]) => day !== null && day >= this.first && day <= this.last);
  }

  x(day) {
    return (day - this.first + 0.5) * this.width / (this.last - this.first + 1);
  }

  dayAt(x) {
    return Math.min(this.last, Math.max(this.first, Math.floor(this.first + x * (this.last - this.first + 1) / this.width)));
  }

  draw() {
    this.width = this.canvas.clientWidth;
    if (!this.width) return;
    const scale = window.devicePixelRatio || 1;
    [this.canvas.width, this.canvas.height] = [Math.round(this.width * scale), Math.round(STRIP_HEIGHT * scale)];
    const pen = this.canvas.getContext("2d");
    const colour = (name) => getComputedStyle(document.documentElement).getPropertyValue(`--${name}`).trim();
    pen.scale(scale, scale);
    pen.font = "14px system-ui, sans-serif";
    pen.textAlign = "center";
    // What is outside of the span that is asked for is shaded.
    pen.fillStyle = colour("paper");
    if (this.span[0] > this.first) pen.fillRect(0, 0, this.x(this.span[0]), MARKS);
    if (this.span[1] < this.last) pen.fillRect(this.x(this.span[1]), 0, this.width, MARKS);
    pen.fillStyle = colour("edge");
    for (const end of this.span) if (end > 0 && end < DAYS - 1) pen.fillRect(this.x(end), 0, 1, MARKS);
    for (const [day, name] of this.marks(this.width)) {
      const x = this.x(day);
      pen.fillStyle = colour("hair");
      pen.fillRect(x, 0, 1, MARKS + 6);
      pen.fillStyle = colour("faint");
      const half = pen.measureText(name).width / 2;
      pen.fillText(name, Math.min(this.width - half - 2, Math.max(half + 2, x)), MARKS + 22);
    }
    if (this.drag) {
      const [from, to] = this.drag.map((day) => this.x(day));
      pen.fillStyle = colour("chosen-paper");
      pen.fillRect(Math.min(from, to), 0, Math.abs(to - from) + 1, MARKS);
    }
    // How many days there are in each column; one that stands alone is a whole mark.
    const counts = new Uint32Array(Math.ceil(this.width));
    let most = 0;
    for (const day of this.days) {
      if (day < this.first || day > this.last) continue;
      const column = Math.min(counts.length - 1, Math.floor(this.x(day)));
      counts[column]++;
      most = Math.max(most, counts[column]);
    }
    pen.fillStyle = colour("ink");
    counts.forEach((count, column) => {
      const height = most <= 2 ? MARKS - 12 : Math.max(3, (MARKS - 12) * count / most);
      if (count) pen.fillRect(column, MARKS - height, most <= 2 ? 2 : 1, height);
    });
    if (this.chosen !== null && this.chosen >= this.first && this.chosen <= this.last) {
      const x = this.x(this.chosen);
      pen.fillStyle = colour("chosen");
      pen.fillRect(x - 1, 0, 3, MARKS);
      pen.beginPath();
      pen.arc(x + 0.5, 5, 5, 0, 7);
      pen.fill();
    }
    this.say();
  }

  // The same in words.
  say() {
    const date = (day) => this.desk.date(day);
    const found = this.days.length ? WORDS.strip(grouped(this.days.length), date(this.days[0]), date(this.days[this.days.length - 1])) : "";
    const whole = this.first === 0 && this.last === DAYS - 1;
    byId("strip-text").textContent = whole ? found : `${found}; ${WORDS.stripView(date(this.first), date(this.last))}`;
    byId("ask-years").hidden = whole;
    if (!whole) byId("ask-years").textContent = WORDS.onlyYears(date(this.first), date(this.last));
    const centuries = [];
    for (let year = 1500, at = 0; year <= 2600 && at < this.days.length; year += 100) {
      const next = this.startOf(year + 100, 1);
      const from = at;
      while (at < this.days.length && (next === null || this.days[at] < next)) at++;
      if (at > from) centuries.push(WORDS.century(year, at - from));
    }
    this.canvas.setAttribute("aria-label", [found, centuries.join(", "), WORDS.stripKeys].filter(Boolean).join(". "));
  }

  down(event) {
    this.canvas.setPointerCapture(event.pointerId);
    const day = this.dayAt(event.offsetX);
    this.drag = [day, day];
  }

  move(event) {
    if (!this.drag) return;
    this.drag[1] = this.dayAt(event.offsetX);
    this.draw();
  }

  // A drag zooms to what was drawn over; a click chooses the day next to it.
  up(event) {
    if (!this.drag) return;
    const [from, to] = this.drag.sort((one, other) => one - other);
    this.drag = null;
    if (this.x(to) - this.x(from) > 5) {
      this.view(from, to);
      this.draw();
      return;
    }
    const day = this.dayAt(event.offsetX);
    let next = null;
    for (const found of this.days) if (next === null || Math.abs(found - day) < Math.abs(next - day)) next = found;
    if (next !== null && Math.abs(this.x(next) - event.offsetX) <= 8) this.chose(next);
    else this.draw();
  }

  key(event) {
    const step = (this.last - this.first + 1) / 4;
    const acts = { "+": () => this.zoom(0.5), "=": () => this.zoom(0.5), "-": () => this.zoom(2), "0": () => this.all(), ArrowLeft: () => this.view(this.first - step, this.last - step), ArrowRight: () => this.view(this.first + step, this.last + step) };
    if (!acts[event.key] || event.ctrlKey || event.metaKey) return;
    event.preventDefault();
    acts[event.key]();
    this.draw();
  }
}
