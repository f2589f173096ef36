// The desk: the text is its one state, and form, sentence, list, strip and link are views of it. A list stands only
// beside the text that it answers, and only when it is whole.
const LINK = "#page=";
const LONGEST_LINK = 16000;
const MOST_PRINTED = 5000;
const NONE = new Uint32Array(0);

const grouped = (number) => String(number).replace(/\B(?=(\d{3})+$)/g, ",");

// 35:44:8 as 35° 44′ 8″, wherever it stands in a text.
const degrees = (text) => text === "-" ? "–" : text.replace(/(\d+):(\d+):(\d+)/g, "$1°\u00a0$2′\u00a0$3″");

const capital = (text) => text.charAt(0).toUpperCase() + text.slice(1);

// Both spellings of each name, with what is shown: the transliteration, begun by a capital.
function namesOf(desk) {
  const names = {};
  const put = (kind, first, last) => {
    names[kind] = [];
    for (let number = first; number <= last; number++) {
      const [plain, marked] = [0, 1].map((spelling) => desk.name(kind, number, spelling));
      names[kind][number] = { plain, shown: capital(marked) };
    }
  };
  for (const [kind, [first, last]] of Object.entries(SETS)) put(kind, first, last);
  put("sign", 0, 11);
  put("weekday", 0, 6);
  return names;
}

class Page {
  constructor(desk, module) {
    this.desk = desk;
    this.module = module;
    this.names = namesOf(desk);
    this.number = 0;
    this.found = null;
    this.busy = false;
    this.editor = new Editor((text) => this.setText(text));
    this.form = new Form(this.names, (day) => desk.date(day), (change, focusKey) => this.setText(change(this.text), { focusKey }));
    this.list = new List((days) => desk.lines(this.whole, PRINT.csv, days), (day, focus) => this.day.open(day, focus));
    this.day = new DayPanel(desk, this.names, (number, date) => this.dayShown(number, date));
    this.strip = new Strip(desk, (day) => this.day.open(day, false), (first, last) => this.askYears(first, last));
    this.newWorker();
    this.wire();
  }

  wire() {
    const clicks = {
      example: () => this.setText(WORDS.examplePage),
      clear: () => this.setText(""),
      every: () => this.search(),
      stop: () => this.stop(),
      "save-page": () => this.saveBlob(new Blob([this.whole], { type: "text/plain" }), "page.txt"),
      "save-csv": () => this.save(PRINT.csv, "pierheather.csv", "text/csv"),
      "save-text": () => this.save(PRINT.names, "pierheather.txt", "text/plain"),
      "copy-link": () => this.copyLink(),
      "print-list": () => window.print(),
      "to-list": () => byId("right-title").focus(),
      "help-button": () => {
        byId("help").hidden = !byId("help").hidden;
        byId("help-button").setAttribute("aria-expanded", String(!byId("help").hidden));
      },
      theme: () => this.setTheme(document.documentElement.dataset.theme === "dark" ? "light" : "dark"),
    };
    for (const [id, act] of Object.entries(clicks)) byId(id).addEventListener("click", act);
    byId("open").addEventListener("change", async (event) => {
      const [file] = event.target.files;
      if (file) this.setText((await file.text()).replace(/\r\n/g, "\n"));
      event.target.value = "";
    });
    byId("why-form").addEventListener("submit", (event) => {
      event.preventDefault();
      this.sayWhy();
    });
    byId("saka-form").addEventListener("submit", (event) => {
      event.preventDefault();
      this.saySaka();
    });
    window.addEventListener("hashchange", () => {
      const text = this.linked();
      if (text !== null && text !== this.text) this.setText(text);
    });
    window.addEventListener("beforeprint", () => this.fillPrint());
    const system = window.matchMedia("(prefers-color-scheme: dark)");
    system.addEventListener("change", () => this.setTheme(system.matches ? "dark" : "light"));
    this.setTheme(system.matches ? "dark" : "light");
  }

  setTheme(theme) {
    document.documentElement.dataset.theme = theme;
    byId("theme").textContent = theme === "dark" ? WORDS.light : WORDS.dark;
    this.strip.draw();
  }

  newWorker() {
    if (this.worker) this.worker.terminate();
    const url = URL.createObjectURL(new Blob([OWN_SCRIPT], { type: "text/javascript" }));
    this.worker = new Worker(url);
    URL.revokeObjectURL(url);
    this.worker.onmessage = ({ data }) => this.searched(data);
    this.worker.postMessage({ module: this.module });
    // Where a browser lets no worker run, the page searches by itself.
    this.worker.onerror = () => {
      if (this.busy) this.searched({ number: this.number, ...this.desk.find(this.whole) });
    };
    this.busy = false;
  }

  // A new text: what stood beside the old one goes at once.
  setText(text, { focusKey = null } = {}) {
    this.text = text;
    this.whole = ended(text);
    this.number += 1;
    this.found = null;
    if (this.busy) this.newWorker();
    clearTimeout(this.slow);
    byId("right").setAttribute("aria-busy", "false");
    for (const id of ["results", "stop", "every"]) byId(id).hidden = true;
    for (const id of ["counts", "saved", "why-said", "day-fits"]) byId(id).textContent = "";
    this.strip.show(NONE, this.day.number);
    this.list.show(NONE, this.names);
    this.editor.show(text);
    this.keepLink();
    const refusal = this.desk.refusal(this.whole);
    this.say(refusal);
    if (refusal) {
      byId("reading").textContent = WORDS.notUnderstood;
      return;
    }
    const asked = this.desk.asked(this.whole);
    byId("reading").replaceChildren(made("span", { className: "lead", textContent: WORDS.understood }), degrees(this.desk.reading(this.whole).trimEnd()));
    this.form.fill(this.whole, asked, focusKey);
    this.day.edition = asked.edition;
    if (this.day.number !== null) this.day.open(this.day.number, false);
    this.span = asked.span;
    const [first, last] = this.span;
    if (Object.keys(asked.sets).length + Object.keys(asked.arcs).length) {
      this.search();
      return;
    }
    byId("counts").textContent = WORDS.nothing(grouped(last - first + 1));
    byId("every").hidden = false;
  }

  // The program's words: why the page is refused, or how it may be meant otherwise.
  say(refusal) {
    const numberOf = (line) => Number((/^line (\d+):/.exec(line) || [])[1] || 0);
    // That nothing is asked the desk says itself, since it lists no day then.
    const lines = this.desk.said(this.whole).split("\n").filter((line) => line && (refusal || numberOf(line)));
    const paragraphs = lines.map((line) => {
      const paragraph = made("p", { className: refusal ? "fault" : "remark", textContent: line });
      const number = numberOf(line);
      if (number) {
        const button = made("button", { type: "button", textContent: WORDS.line(number) });
        button.addEventListener("click", () => this.editor.goTo(number));
        paragraph.append(" ", button);
      }
      return paragraph;
    });
    byId("said").replaceChildren(...paragraphs);
    if (refusal) this.editor.mark(this.desk.faultLine(this.whole), true);
    else this.editor.mark(lines.map(numberOf).find(Boolean) || 0, false);
  }

  search() {
    byId("every").hidden = true;
    byId("counts").textContent = "";
    byId("right").setAttribute("aria-busy", "true");
    this.busy = true;
    this.slow = setTimeout(() => {
      byId("counts").textContent = WORDS.searching;
      byId("stop").hidden = false;
    }, 150);
    this.worker.postMessage({ text: this.whole, number: this.number });
  }

  stop() {
    clearTimeout(this.slow);
    if (this.busy) this.newWorker();
    byId("right").setAttribute("aria-busy", "false");
    byId("stop").hidden = true;
    byId("counts").textContent = WORDS.stopped;
  }

  // The whole answer to the text that stands there now; an answer to another is not looked at.
  searched({ number, found, looked, days }) {
    if (number !== this.number) return;
    this.busy = false;
    clearTimeout(this.slow);
    byId("stop").hidden = true;
    byId("right").setAttribute("aria-busy", "false");
    this.found = { found, looked, days };
    const counts = WORDS.counts(grouped(found), grouped(looked));
    byId("counts").textContent = found ? counts : `${counts}. ${WORDS.none}`;
    byId("results").hidden = found === 0;
    if (found === 0) return;
    this.strip.show(days, this.day.number, this.span);
    this.list.show(days, this.names);
    if (this.day.number !== null) this.list.mark(this.day.number);
  }

  // The page with its answers in names, where it does not say how.
  inNames() {
    return indexOfLine(this.whole, "print") < 0 ? withLine(this.whole, "print", "names") : this.whole;
  }

  whyOf(day) {
    const text = `${day}\n${this.inNames()}`;
    return (this.desk.why(text) + this.desk.whySaid(text)).trimEnd();
  }

  sayWhy() {
    byId("why-said").textContent = this.whyOf(byId("why").value.replace(/[#\s]/g, ""));
  }

  saySaka() {
    const line = `${byId("saka").value.replace(/\n/g, " ")}\n`;
    const lines = (this.desk.saka(line) + this.desk.sakaSaid(line)).trimEnd().split("\n");
    byId("saka-said").replaceChildren(...lines.map((said) => {
      const paragraph = made("p", { textContent: said });
      const day = /mark: (\d+) /.exec(said);
      if (day) {
        const button = made("button", { type: "button", textContent: WORDS.columns[0] + " " + day[1] });
        button.addEventListener("click", () => this.day.open(Number(day[1]), true));
        paragraph.append(" ", button);
      }
      return paragraph;
    }));
  }

  dayShown(number) {
    this.strip.mark(number);
    if (this.found) this.list.mark(number === null ? -1 : number);
    byId("day-fits").textContent = number === null || this.desk.refusal(this.whole) ? "" : this.whyOf(number);
  }

  askYears(first, last) {
    this.strip.all();
    this.setText(withLine(this.text, "span", `${this.desk.date(first)} ${this.desk.date(last)}`));
  }

  linked() {
    const { hash } = window.location;
    if (!hash.startsWith(LINK)) return null;
    try {
      return decodeURIComponent(hash.slice(LINK.length));
    } catch {
      return null;
    }
  }

  keepLink() {
    const link = LINK + encodeURIComponent(this.text);
    clearTimeout(this.linking);
    this.linking = setTimeout(() => history.replaceState(null, "", link.length <= LONGEST_LINK ? link : "#"), 200);
  }

  async copyLink() {
    const link = LINK + encodeURIComponent(this.text);
    if (link.length > LONGEST_LINK) {
      byId("saved").textContent = WORDS.tooLongLink;
      return;
    }
    const whole = window.location.href.split("#")[0] + link;
    try {
      await navigator.clipboard.writeText(whole);
      byId("saved").textContent = WORDS.copied;
    } catch {
      byId("saved").textContent = whole;
    }
  }

  // The catalogue as `find` prints it, in parts, so that the page goes on answering meanwhile.
  async save(print, name, type) {
    const { found, days } = this.found;
    const { number, whole } = this;
    const parts = [this.desk.heading(whole, print, found, this.found.looked)];
    for (let from = 0; from < days.length; from += 8192) {
      parts.push(this.desk.lines(whole, print, days.subarray(from, from + 8192)));
      byId("saved").textContent = WORDS.saving(Math.floor(100 * from / days.length));
      await new Promise((next) => setTimeout(next));
      if (number !== this.number) return;
    }
    this.saveBlob(new Blob(parts, { type }), name);
    byId("saved").textContent = WORDS.saved(name);
  }

  saveBlob(blob, name) {
    const url = URL.createObjectURL(blob);
    made("a", { href: url, download: name }).click();
    setTimeout(() => URL.revokeObjectURL(url), 60000);
  }

  // What is printed: the sentence, the numbers, the list, the page's text, the version and the date.
  fillPrint() {
    const parts = [made("h1", { textContent: document.title }), made("p", { className: "reading", textContent: byId("reading").textContent }), made("p", { textContent: byId("counts").textContent })];
    const { found } = this;
    if (found && found.found > MOST_PRINTED) parts.push(made("p", { textContent: WORDS.printTooLong(grouped(found.found)) }));
    else if (found && found.found) {
      const rows = this.desk.lines(this.whole, PRINT.csv, found.days).trimEnd().split("\n").map((line, index) => {
        const row = this.list.row(line, index);
        row.firstChild.textContent = row.dataset.day;
        return row;
      });
      const head = made("thead", {}, made("tr", {}, ...WORDS.columns.map((name) => made("th", { scope: "col", textContent: name }))));
      parts.push(made("table", {}, head, made("tbody", {}, ...rows)));
    }
    parts.push(made("pre", { textContent: this.whole }), made("p", { textContent: `${document.querySelector("footer").textContent.trim()}. ${WORDS.printedOn(new Date().toISOString().slice(0, 10))}` }));
    byId("printed").replaceChildren(...parts);
  }
}

async function begin() {
  document.documentElement.lang = WORDS.language;
  for (const element of document.querySelectorAll("[data-word]")) element.textContent = WORDS[element.dataset.word];
  byId("help-text").append(...WORDS.helpText.map((text) => made("p", { textContent: text })));
  try {
    const module = await compiledModule(byId("module").textContent);
    const page = new Page(await openDesk(module), module);
    const linked = page.linked();
    page.setText("");
    page.setText(linked === null ? WORDS.examplePage : linked);
    document.documentElement.dataset.ready = "yes";
  } catch (error) {
    byId("reading").textContent = `${WORDS.broken} (${error.message})`;
  }
}

if (!IN_WORKER) begin();
