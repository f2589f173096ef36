// The conditions as a form: a view of the text. It is filled from the numbers that the module hands out for the page
// (`desk_asked`), and what is changed in it is written into the text's own lines.
const SETS = { tithi: [0, 29], nakshatra: [0, 26], yoga: [0, 26], karana: [1, 11] };
const CIRCLE = 1296000;
const SIGN = 108000;

const bodyOf = (word) => word.replace(/^true_/, "");
const isTrue = (word) => word.startsWith("true_");

function secondsOf(angle) {
  const [degrees, minutes, seconds] = angle.split(":").map(Number);
  return degrees * 3600 + minutes * 60 + seconds;
}

// An angle as short as it can be written: `35:0`, `35:44:8`.
function angleOf(seconds) {
  const [degrees, minutes, rest] = [Math.floor(seconds / 3600), Math.floor(seconds / 60) % 60, seconds % 60];
  return rest ? `${degrees}:${minutes}:${rest}` : `${degrees}:${minutes}`;
}

// How the arcs of a line are written there, as many as it has: by a sign, an end or a width.
function shapesOf(line) {
  const words = wordsOf(line).slice(1);
  const shapes = [];
  while (words.length) {
    const shape = !/^\d/.test(words[0]) ? "sign" : /^to$/i.test(words[1] || "") ? "to" : "width";
    shapes.push(shape);
    words.splice(0, { sign: 1, to: 3, width: 2 }[shape]);
  }
  return shapes;
}

class Form {
  constructor(names, dateOf, write) {
    Object.assign(this, { names, dateOf, write });
    this.form = byId("form");
    this.form.addEventListener("submit", (event) => event.preventDefault());
    this.boxes = {};
    this.summaries = {};
    const sets = made("div", { className: "sets" }, ...Object.keys(SETS).map((word) => this.set(word)));
    this.form.append(this.weekdays(), sets, this.bodies(), made("div", { className: "pair" }, this.span(), this.editions()));
  }

  box(word, number, label) {
    const box = made("input", { type: "checkbox", value: number, id: `${word}-${number}` });
    box.addEventListener("change", () => this.writeSet(word));
    this.boxes[word].push(box);
    return made("label", label.properties, box, ...label.children);
  }

  weekdays() {
    this.boxes.weekday = [];
    const ticks = WORDS.weekdays.map((name, number) => {
      const label = this.box("weekday", number, { properties: { className: "tick", title: name }, children: [made("span", { textContent: name.slice(0, 3) })] });
      label.firstChild.className = "unseen";
      label.firstChild.setAttribute("aria-label", name);
      return label;
    });
    return made("fieldset", {}, made("legend", { textContent: WORDS.weekday }), made("div", { className: "ticks week" }, ...ticks));
  }

  set(word) {
    this.boxes[word] = [];
    const [first, last] = SETS[word];
    const labels = [];
    for (let number = first; number <= last; number++) {
      const { shown, plain } = this.names[word][number];
      const children = [made("span", { className: "name", textContent: shown }), made("span", { className: "number", textContent: number })];
      labels.push(this.box(word, number, { properties: { title: plain }, children }));
    }
    this.summaries[word] = made("span", { className: "value" });
    const summary = made("summary", {}, made("b", { textContent: WORDS[word] }), ": ", this.summaries[word]);
    const grid = made("div", { className: word === "tithi" ? "grid halves" : "grid", role: "group", "aria-label": WORDS[word] }, ...labels);
    return made("details", { id: `set-${word}` }, summary, grid);
  }

  bodies() {
    this.rows = made("div");
    this.another = made("select", { id: "another", "aria-label": WORDS.addBody }, made("option", { value: "", textContent: WORDS.addBody }));
    for (const body of BODIES) this.another.append(made("option", { value: body, textContent: WORDS.body[body] }));
    const add = made("button", { type: "button", id: "add-body", textContent: WORDS.add });
    add.addEventListener("click", () => this.addBody());
    return made("fieldset", {}, made("legend", { textContent: WORDS.bodies }), this.rows, made("div", { className: "line" }, this.another, add));
  }

  span() {
    const field = (id, label, open) => {
      const input = made("input", { id, size: 9, placeholder: open, title: WORDS.yearHint });
      input.addEventListener("change", () => this.writeSpan());
      return [made("label", { for: id, textContent: label }), input];
    };
    return made("fieldset", {}, made("legend", { textContent: WORDS.years }), made("div", { className: "line" }, ...field("span-first", WORDS.first, this.dateOf(0)), ...field("span-last", WORDS.last, this.dateOf(DAYS - 1))));
  }

  editions() {
    const choices = ["1", "2"].map((number) => {
      const input = made("input", { type: "radio", name: "edition", value: number, className: "unseen", id: `edition-${number}` });
      input.addEventListener("change", () => this.write((text) => withLine(text, "edition", number === "1" ? null : number)));
      return made("label", { className: "tick" }, input, made("span", { textContent: number }));
    });
    return made("fieldset", {}, made("legend", { textContent: WORDS.edition }), made("div", { className: "ticks" }, ...choices));
  }

  writeSet(word) {
    const chosen = this.boxes[word].filter((box) => box.checked).map((box) => this.names[word][box.value].plain);
    this.write((text) => withLine(text, word, chosen.length ? chosen.join(" ") : null));
  }

  writeSpan() {
    const [first, last] = ["span-first", "span-last"].map((id) => byId(id).value.trim());
    const whole = (value, open, rest) => value === "" ? this.dateOf(open) : /^\d{4}$/.test(value) ? `${value}${rest}` : value;
    this.write((text) => withLine(text, "span", first || last ? `${whole(first, 0, "-1-1")} ${whole(last, DAYS - 1, "-12-31")}` : null));
  }

  addBody() {
    const body = this.another.value;
    if (!body) return this.another.focus();
    const words = NO_TRUE_PLACE.includes(body) ? [body] : [`true_${body}`, body];
    const word = words.find((name) => indexOfLine(this.text, name) < 0);
    this.another.value = "";
    if (!word) return undefined;
    this.write((text) => withLine(text, word, this.names.sign[0].plain));
    const first = this.rows.querySelector(`[data-key="${word} shape 0"]`);
    if (first) first.focus();
    return undefined;
  }

  // A row for the arcs of a word.
  row(word, arcs, shapes) {
    const body = bodyOf(word);
    const key = (control, name) => {
      control.dataset.key = `${word} ${name}`;
      return control;
    };
    const fields = [];
    const valuesOf = () => fields.map((field) => field.values()).join(" ");
    const writeArcs = () => this.write((text) => withLine(text, word, valuesOf()));
    const select = (name, label, options, chosen, changed) => {
      const control = key(made("select", { "aria-label": `${WORDS.body[body]}: ${label}` }), name);
      for (const [value, shown] of options) control.append(made("option", { value, textContent: shown, selected: value === chosen }));
      control.addEventListener("change", () => changed(control.value));
      return control;
    };
    const input = (name, label, value) => {
      const control = key(made("input", { value, "aria-label": `${WORDS.body[body]}: ${label}` }), name);
      control.addEventListener("change", writeArcs);
      return control;
    };
    const button = (name, label, pressed) => {
      const control = key(made("button", { type: "button", textContent: label, "aria-label": `${WORDS.body[body]}: ${label}` }), name);
      control.addEventListener("click", pressed);
      return control;
    };
    const lines = arcs.map(([start, width], number) => {
      const end = start + width > CIRCLE ? start + width - CIRCLE : start + width;
      const signed = start % SIGN === 0 && width === SIGN;
      const shape = shapes[number] === "sign" && !signed ? "to" : shapes[number] || "width";
      const plainSign = (index) => this.names.sign[index].plain;
      const written = { sign: () => plainSign(Math.floor(start / SIGN)), to: () => `${angleOf(start)} to ${angleOf(width === CIRCLE ? start : end)}`, width: () => `${angleOf(start)} ${angleOf(width)}` };
      const shapeField = select(`shape ${number}`, WORDS.shape, Object.entries(WORDS.shapes), shape, (value) => {
        fields[number].values = written[value];
        writeArcs();
      });
      if (shape === "sign") {
        const signs = this.names.sign.map((name, index) => [plainSign(index), `${name.shown} ${index * 30}°`]);
        const control = select(`sign ${number}`, WORDS.sign, signs, written.sign(), writeArcs);
        fields.push({ values: () => control.value });
        return made("div", { className: "line" }, shapeField, control);
      }
      const otherLabel = shape === "to" ? WORDS.end : WORDS.width;
      const [from, other] = [input(`start ${number}`, WORDS.start, angleOf(start)), input(`end ${number}`, otherLabel, angleOf(shape === "to" ? end : width))];
      const entered = (control) => control.value.replace(/[\s,#]/g, "");
      fields.push({ values: () => [entered(from), ...(shape === "to" ? ["to"] : []), entered(other)].join(" ") });
      return made("div", { className: "line" }, shapeField, from, made("span", { textContent: otherLabel, "aria-hidden": "true" }), other);
    });
    const places = NO_TRUE_PLACE.includes(body) ? [["mean", WORDS.mean]] : [["true", WORDS.true], ["mean", WORDS.mean]];
    const place = select("place", WORDS.place, places, isTrue(word) ? "true" : "mean", (value) => {
      const other = value === "true" ? `true_${body}` : body;
      if (indexOfLine(this.text, other) < 0) this.write((text) => withLine(text, word, valuesOf(), other), `${other} place`);
      else this.refresh();
    });
    const ends = [];
    if (arcs.length < 2) ends.push(button("or", WORDS.or, () => this.write((text) => withLine(text, word, `${valuesOf()} ${this.names.sign[0].plain}`))));
    else ends.push(button("or", WORDS.one, () => this.write((text) => withLine(text, word, fields[0].values()))));
    ends.push(button("remove", WORDS.remove, () => this.write((text) => withLine(text, word, null))));
    return made("div", { className: "body", role: "group", "aria-label": `${WORDS.body[body]}, ${isTrue(word) ? WORDS.true : WORDS.mean}` },
      made("div", { className: "line" }, made("b", { textContent: WORDS.body[body] }), place, ...ends), ...lines);
  }

  // Fills the form from an accepted page: by the module's numbers, and by the text for how an arc is written.
  fill(text, asked, focusKey = null) {
    this.text = text;
    this.refresh = () => this.fill(text, asked);
    for (const [word, boxes] of Object.entries(this.boxes)) {
      const numbers = asked.sets[word] || [];
      for (const box of boxes) box.checked = numbers.includes(Number(box.value));
      if (!this.summaries[word]) continue;
      this.summaries[word].textContent = numbers.map((number) => `${this.names[word][number].shown} ${number}`).join(", ") || WORDS.any;
      this.summaries[word].classList.toggle("any", numbers.length === 0);
    }
    const held = focusKey || (document.activeElement && document.activeElement.dataset.key);
    const rows = Object.entries(asked.arcs).map(([word, arcs]) => this.row(word, arcs, shapesOf(linesOf(text)[indexOfLine(text, word)] || "")));
    this.rows.replaceChildren(...rows);
    const again = held && this.rows.querySelector(`[data-key="${held}"]`);
    if (again) again.focus();
    const [first, last] = asked.span;
    byId("span-first").value = first > 0 ? this.dateOf(first) : "";
    byId("span-last").value = last < DAYS - 1 ? this.dateOf(last) : "";
    byId(`edition-${asked.edition}`).checked = true;
  }
}
