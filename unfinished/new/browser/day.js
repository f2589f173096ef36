// A day at a glance, with a dial of the nine bodies.
const SVG = "http://www.w3.org/2000/svg";

function drawn(tag, attributes, text) {
  const element = document.createElementNS(SVG, tag);
  for (const [name, value] of Object.entries(attributes)) element.setAttribute(name, value);
  if (text !== undefined) element.textContent = text;
  return element;
}

// The lines that `day` prints, taken apart; null where it refuses.
function glanceOf(printed) {
  if (!printed.startsWith("day ")) return null;
  const glance = { lines: {}, bodies: [] };
  for (const line of printed.trimEnd().split("\n")) {
    const words = line.split(/ +/);
    if (BODIES.includes(words[0])) glance.bodies.push({ body: words[0], mean: words[1], true: words[2], sign: words[3] });
    else if (words[0] === "lunar") glance.lines["lunar month"] = words.slice(2);
    else glance.lines[words[0]] = words.slice(1);
  }
  glance.number = Number(glance.lines.day[0]);
  glance.start = Number(glance.lines["lunar month"][2]);
  return glance;
}

// How much of the circle the letters of a body take on the dial, without and with the sign that it goes back.
const LETTERS = 13 * 3600;
const WIDE_LETTERS = 20 * 3600;

// Places round the circle, the least first, with how much each takes, moved apart so far that none covers another.
function apart(wanted) {
  const places = wanted.map(([place]) => place);
  for (let times = 0; times < 100; times++) {
    places.forEach((_, index) => {
      const next = (index + 1) % places.length;
      const gap = places[next] + (next ? 0 : CIRCLE) - places[index];
      const lacking = Math.max(0, (wanted[index][1] + wanted[next][1]) / 2 - gap);
      places[index] -= lacking / 2;
      places[next] += lacking / 2;
    });
  }
  return places;
}

const placeOf = (row) => secondsOf(row.true === "-" ? row.mean : row.true);

class DayPanel {
  constructor(desk, names, shown) {
    Object.assign(this, { desk, names, shown, number: null, edition: "1" });
    this.box = byId("day");
    const acts = { "day-back": () => this.leaf(-1), "day-on": () => this.leaf(1), "month-back": () => this.leafMonth(-1), "month-on": () => this.leafMonth(1), "day-close": () => this.close() };
    for (const [id, act] of Object.entries(acts)) byId(id).addEventListener("click", act);
    this.box.addEventListener("keydown", (event) => this.key(event));
  }

  glance(number) {
    return glanceOf(this.desk.day(`${number} edition ${this.edition}\n`));
  }

  open(number, focus) {
    const glance = this.glance(number);
    if (!glance) return;
    this.number = number;
    this.box.hidden = false;
    // A body goes back where its place on the next day is behind: less than half a circle against the order of signs.
    const [one, other] = number < DAYS - 1 ? [glance, this.glance(number + 1)] : [this.glance(number - 1), glance];
    glance.bodies.forEach((row, at) => {
      row.back = (placeOf(other.bodies[at]) - placeOf(one.bodies[at]) + CIRCLE) % CIRCLE > CIRCLE / 2;
    });
    byId("day-title").textContent = WORDS.dayTitle(glance.lines.iso[0], WORDS.weekdays[glance.lines.weekday[0]]);
    this.writeLines(glance);
    this.writeBodies(glance);
    this.drawDial(glance);
    if (focus) byId("day-title").focus();
    else byId("day-title").scrollIntoView({ block: "nearest" });
    this.shown(number, glance.lines.date[0]);
  }

  close() {
    this.number = null;
    this.box.hidden = true;
    this.shown(null);
  }

  writeLines(glance) {
    const shown = [];
    const written = { cycle: ([cycle, , day]) => WORDS.cycle(cycle, day), "lunar month": ([number, , day, date]) => WORDS.lunarMonth(number, day, date) };
    for (const [label, name] of Object.entries(WORDS.dayLines)) {
      const words = glance.lines[label];
      const named = label === "weekday" ? WORDS.weekdays[words[0]] : this.names[label] && this.names[label][words[0]].shown;
      const value = named ? [made("span", { className: "name", textContent: named }), " ", made("span", { className: "number", textContent: words[0] })] : [written[label] ? written[label](words) : words.join(" ")];
      shown.push(made("dt", { textContent: name }), made("dd", {}, ...value));
    }
    byId("day-lines").replaceChildren(...shown);
  }

  signName(plain) {
    return this.names.sign.find((name) => name.plain === plain).shown;
  }

  writeBodies(glance) {
    const head = made("thead", {}, made("tr", {}, ...WORDS.bodyColumns.map((name) => made("th", { scope: "col", textContent: name }))));
    const rows = glance.bodies.map((row) => {
      const back = row.back ? [" ", made("abbr", { textContent: WORDS.back, title: WORDS.goesBack })] : [];
      const cells = [degrees(row.mean), degrees(row.true), this.signName(row.sign)].map((text) => made("td", { textContent: text }));
      cells[1].append(...back);
      return made("tr", {}, made("th", { scope: "row", textContent: `${WORDS.body[row.body]} (${WORDS.letters[row.body]})` }), ...cells);
    });
    byId("bodies").replaceChildren(made("caption", { textContent: WORDS.places }), head, made("tbody", {}, ...rows));
  }

  drawDial(glance) {
    const at = (seconds, radius) => {
      const turn = seconds / CIRCLE * 2 * Math.PI;
      return [Math.sin(turn) * radius, -Math.cos(turn) * radius].map((value) => value.toFixed(1));
    };
    const parts = [drawn("circle", { r: 180 }), drawn("circle", { r: 150 })];
    this.names.sign.forEach((name, number) => {
      const [[x1, y1], [x2, y2], [x, y]] = [at(number * SIGN, 150), at(number * SIGN, 180), at((number + 0.5) * SIGN, 165)];
      parts.push(drawn("line", { x1, y1, x2, y2, class: "cut" }), drawn("text", { x, y, class: "sign", transform: `rotate(${number * 30 + (number > 2 && number < 9 ? 195 : 15)} ${x} ${y})` }, name.shown));
    });
    // A hand and a mark at the rim have the place; the letters stand between them, moved apart where they are close.
    const rows = [...glance.bodies].sort((one, other) => placeOf(one) - placeOf(other));
    const letters = apart(rows.map((row) => [placeOf(row), row.back ? WIDE_LETTERS : LETTERS]));
    parts.push(drawn("circle", { r: 3, class: "hub" }));
    rows.forEach((row, index) => {
      const [[x2, y2], [mx1, my1], [mx2, my2], [x, y]] = [at(placeOf(row), 96), at(placeOf(row), 140), at(placeOf(row), 150), at(letters[index], 122)];
      const [lx, ly] = at(letters[index], 108);
      parts.push(drawn("line", { x1: 0, y1: 0, x2, y2, class: row.back ? "hand back" : "hand" }), drawn("line", { x1: x2, y1: y2, x2: lx, y2: ly, class: "lead" }), drawn("line", { x1: mx1, y1: my1, x2: mx2, y2: my2, class: "mark" }));
      parts.push(drawn("text", { x, y }, WORDS.letters[row.body] + (row.back ? ` ${WORDS.back}` : "")));
    });
    const dial = byId("dial");
    dial.replaceChildren(...parts);
    dial.setAttribute("aria-label", glance.bodies.map((row) => `${WORDS.body[row.body]} ${degrees(row.true === "-" ? row.mean : row.true)} ${this.signName(row.sign)}${row.back ? `, ${WORDS.goesBack}` : ""}`).join("; "));
  }

  leaf(days) {
    const number = this.number + days;
    if (number >= 0 && number < DAYS) this.open(number, false);
  }

  // To the first day of the next lunar month, or of this one, or of the one before where it is there already.
  leafMonth(step) {
    const glance = this.glance(this.number);
    if (!(glance.start >= 0)) return this.leaf(step * 30);
    if (step < 0) {
      if (this.number > glance.start) return this.open(glance.start, false);
      const before = glance.start > 0 ? this.glance(glance.start - 1) : null;
      return before && before.start >= 0 ? this.open(before.start, false) : undefined;
    }
    for (let number = glance.start + 28; number <= Math.min(DAYS - 1, glance.start + 32); number++) {
      if (number > this.number && this.glance(number).start !== glance.start) return this.open(number, false);
    }
    return undefined;
  }

  key(event) {
    if (event.target.closest("input, select, textarea") || event.ctrlKey || event.metaKey || event.altKey) return;
    const acts = { ArrowLeft: () => (event.shiftKey ? this.leafMonth(-1) : this.leaf(-1)), ArrowRight: () => (event.shiftKey ? this.leafMonth(1) : this.leaf(1)), Escape: () => this.close() };
    if (!acts[event.key]) return;
    event.preventDefault();
    acts[event.key]();
  }
}
