// The calls of the proved module, each over bytes that are lent to it in its own memory; README.md has what each of them
// promises. The page and its worker have an instance each.
const PRINT = { page: 0, numbers: 1, names: 2, csv: 3 };
const KINDS = ["tithi", "nakshatra", "yoga", "karana", "sign", "month", "fortnight", "weekday"];
const DAYS = 401600;
const PAGE_BYTES = 65536;
const BODIES = ["sun", "moon", "apogee", "node", "mars", "mercury", "jupiter", "venus", "saturn"];
const NO_TRUE_PLACE = ["apogee", "node"];
// The numbers of what a page asks for, in the order in which `desk_asked` puts them: two of the span, one a set, five a
// body, the edition, the form of print.
const ASKED_SETS = ["weekday", "tithi", "nakshatra", "yoga", "karana"];
const ASKED_BODIES = [...BODIES, ...BODIES.filter((body) => !NO_TRUE_PLACE.includes(body)).map((body) => `true_${body}`)];
const ASKED = 2 + ASKED_SETS.length + 5 * ASKED_BODIES.length + 2;

async function compiledModule(base64) {
  const packed = Uint8Array.from(atob(base64), (letter) => letter.charCodeAt(0));
  const stream = new Blob([packed]).stream().pipeThrough(new DecompressionStream("gzip"));
  return WebAssembly.compile(await new Response(stream).arrayBuffer());
}

async function openDesk(module) {
  return new Desk((await WebAssembly.instantiate(module, {})).exports);
}

class Desk {
  constructor(calls) {
    this.calls = calls;
    this.base = calls.__heap_base.value;
    this.lent = null;
    this.dates = new Map();
    this.encoder = new TextEncoder();
    this.decoder = new TextDecoder("utf-8", { ignoreBOM: true });
  }

  // Puts a text at the front of the free memory, where it is not there already, and hands back the place behind it, at
  // which so many bytes are free.
  lend(text, room) {
    const bytes = text === this.lent ? null : this.encoder.encode(text);
    const length = bytes ? bytes.length : this.length;
    const behind = this.base + ((length + 15) & ~15);
    const lacking = behind + room - this.calls.memory.buffer.byteLength;
    if (lacking > 0) this.calls.memory.grow(Math.ceil(lacking / PAGE_BYTES));
    if (bytes) {
      new Uint8Array(this.calls.memory.buffer, this.base, length).set(bytes);
      this.lent = text;
      this.length = length;
    }
    return behind;
  }

  // What a call puts for a text or none, numbers and a list of days or none; where the room is too short, the call says
  // what would do.
  put(name, text, numbers = [], list = null, room = 4096) {
    const bytes = list ? 4 * list.length : 0;
    const at = this.lend(text === null ? this.lent || "" : text, bytes + room);
    if (list) new Uint32Array(this.calls.memory.buffer, at, list.length).set(list);
    const texts = text === null ? [] : [this.base, BigInt(this.length)];
    const lists = list ? [at, BigInt(bytes)] : [];
    const length = Number(this.calls[name](...texts, ...numbers, ...lists, at + bytes, BigInt(room)));
    if (length > room) return this.put(name, text, numbers, list, length);
    return this.decoder.decode(new Uint8Array(this.calls.memory.buffer, at + bytes, length));
  }

  refusal(text) {
    this.lend(text, 0);
    return this.calls.desk_refusal(this.base, BigInt(this.length)) >>> 0;
  }

  faultLine(text) {
    this.lend(text, 0);
    return this.calls.desk_fault_line(this.base, BigInt(this.length)) >>> 0;
  }

  find(text) {
    const bytes = 4 * DAYS;
    const at = this.lend(text, bytes + 8);
    const refusal = this.calls.desk_find(this.base, BigInt(this.length), at, BigInt(bytes), at + bytes, 8n) >>> 0;
    const [found, looked] = new Uint32Array(this.calls.memory.buffer, at + bytes, 2);
    const days = new Uint32Array(this.calls.memory.buffer, at, refusal ? 0 : found).slice();
    return { refusal, found, looked, days };
  }

  // The lines of the days, all of them: the call puts as many as have room.
  lines(text, print, days) {
    const pieces = [];
    for (let from = 0; from < days.length;) {
      const piece = this.put("desk_lines", text, [print], days.subarray(from, from + 512), 512 * 192);
      const lines = piece.split("\n").length - 1;
      if (!lines) throw new Error("no line of a day that was found");
      pieces.push(piece);
      from += lines;
    }
    return pieces.join("");
  }

  // What a page asks for, null where it is refused: its span, the numbers of each set and the arcs of each body, where
  // they are asked for, in seconds; and its edition.
  asked(text) {
    const at = this.lend(text, 4 * ASKED);
    if (this.calls.desk_asked(this.base, BigInt(this.length), at, BigInt(ASKED))) return null;
    const numbers = [...new Uint32Array(this.calls.memory.buffer, at, ASKED)];
    const next = (count) => numbers.splice(0, count);
    const [span, sets, arcs] = [next(2), {}, {}];
    for (const word of ASKED_SETS) {
      const [bits] = next(1);
      if (bits) sets[word] = Array.from({ length: 32 }, (_, number) => number).filter((number) => bits >>> number & 1);
    }
    for (const word of ASKED_BODIES) {
      const [count, ...rest] = next(5);
      if (count) arcs[word] = [rest.slice(0, 2), rest.slice(2)].slice(0, count);
    }
    return { span, sets, arcs, edition: next(1)[0] };
  }

  // The civil date of a day, from its line by numbers.
  date(day) {
    if (!this.dates.has(day)) this.dates.set(day, this.lines("", PRINT.numbers, Uint32Array.of(day)).split(" ")[1]);
    return this.dates.get(day);
  }

  // The day of a civil date, null where there is none: that from which a page with this date in its span asks.
  dayOf(date) {
    const asked = this.asked(`span ${date} ${DAYS - 1}\n`);
    return asked && asked.span[0];
  }

  said(text) { return this.put("desk_said", text); }
  reading(text) { return this.put("desk_reading", text); }
  heading(text, print, found, looked) { return this.put("desk_heading", text, [print, found, looked]); }
  why(text) { return this.put("desk_why", text); }
  whySaid(text) { return this.put("desk_why_said", text); }
  day(line) { return this.put("desk_day", line); }
  daySaid(line) { return this.put("desk_day_said", line); }
  saka(line) { return this.put("desk_saka", line); }
  sakaSaid(line) { return this.put("desk_saka_said", line); }

  // A name by its kind and number, plain (0) or in transliteration (1).
  name(kind, number, spelling) { return this.put("desk_name", null, [KINDS.indexOf(kind), number, spelling]); }
}
