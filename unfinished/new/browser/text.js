// The page's text: its lines by their first word, and the box it is typed in, with the line at fault marked.
const byId = (id) => document.getElementById(id);

function made(tag, properties = {}, ...children) {
  const element = document.createElement(tag);
  for (const [name, value] of Object.entries(properties)) {
    if (name.startsWith("data-") || name.startsWith("aria-") || name === "for" || name === "role" || name === "scope") element.setAttribute(name, value);
    else element[name] = value;
  }
  element.append(...children);
  return element;
}

// The words of a line: between blanks, before a comment.
const wordsOf = (line) => line.replace(/^\uFEFF/, "").split("#")[0].split(/[ \t\r,]+/).filter(Boolean);

const firstWord = (line) => (wordsOf(line)[0] || "").toLowerCase();

const linesOf = (text) => text.split("\n");

const indexOfLine = (text, word) => linesOf(text).findIndex((line) => firstWord(line) === word);

// The text as it is handed on: its last line is ended.
const ended = (text) => text === "" || text.endsWith("\n") ? text : text + "\n";

// The text with other values behind a word, or without that line where there are none; comments stay.
function withLine(text, word, values, newWord = word) {
  const lines = linesOf(ended(text));
  const at = lines.findIndex((line) => firstWord(line) === word);
  const written = values === null ? "" : `${newWord} ${values}`;
  if (at < 0) {
    if (values !== null) lines.splice(lines.length - 1, 0, written);
    return lines.join("\n");
  }
  const mark = lines[at].startsWith("\uFEFF") ? "\uFEFF" : "";
  const hash = lines[at].indexOf("#");
  const comment = hash < 0 ? "" : lines[at].slice(hash);
  const line = mark + [written, comment].filter(Boolean).join("  ");
  if (line === "") lines.splice(at, 1);
  else lines[at] = line;
  return lines.join("\n");
}

const LINE_HEIGHT = 22;
const PADDING = 4;

class Editor {
  constructor(changed) {
    this.box = byId("text");
    this.marked = null;
    this.box.addEventListener("input", () => changed(this.box.value));
    this.box.addEventListener("scroll", () => this.draw());
    new ResizeObserver(() => this.draw()).observe(this.box);
  }

  show(text) {
    if (this.box.value !== text) this.box.value = text;
  }

  // Marks a line, as at fault or as one that may be meant otherwise; 0 for none.
  mark(line, fault) {
    this.marked = line ? { line, fault } : null;
    this.box.setAttribute("aria-invalid", String(Boolean(fault)));
    this.count = linesOf(this.box.value).length;
    this.draw();
  }

  // The numbers of the lines in sight, and the band behind the marked one.
  draw() {
    const top = this.box.scrollTop;
    const first = Math.floor(top / LINE_HEIGHT);
    const last = Math.min(this.count || 1, first + Math.ceil(this.box.clientHeight / LINE_HEIGHT) + 1);
    const numbers = [];
    for (let line = first + 1; line <= last; line++) {
      const number = made("span", { textContent: line });
      number.style.top = `${PADDING + (line - 1) * LINE_HEIGHT - top}px`;
      if (this.marked && this.marked.line === line && this.marked.fault) number.className = "at-fault";
      numbers.push(number);
    }
    byId("gutter").replaceChildren(...numbers);
    const band = byId("band");
    band.hidden = !this.marked;
    if (!this.marked) return;
    band.className = this.marked.fault ? "" : "remark";
    band.style.top = `${PADDING + (this.marked.line - 1) * LINE_HEIGHT - top}px`;
  }

  goTo(line) {
    const before = linesOf(this.box.value).slice(0, line - 1).reduce((sum, text) => sum + text.length + 1, 0);
    const length = (linesOf(this.box.value)[line - 1] || "").length;
    this.box.focus();
    this.box.setSelectionRange(before, before + length);
    this.box.scrollTop = Math.max(0, (line - 3) * LINE_HEIGHT);
  }
}
