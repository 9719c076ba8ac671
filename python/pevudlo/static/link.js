// Where a program's data comes from: a server, or the page itself. No other module knows which.
import { unrolled } from "./model.js";

/** @typedef {[string, number, number, number]} Look a key, the row that wrote it, 1 for a strip, and which (NOW ..) */
/** @typedef {import("./model.js").News} News */
/** @typedef {import("./model.js").Refused} Refused */
/**
 * A value, or why there is none.
 * @typedef {Partial<import("./model.js").Value> & {isMissing?: boolean, isPending?: boolean, isOther?: boolean}} Piece
 */
/**
 * What is answered to what was asked: why nothing was done, else what is new. `text` is what a row is now that another
 * tab has changed.
 * @typedef {{refused: Refused|null, reply?: string[], text?: string|null, state?: News}} Said
 */
export const NOW = 0, BEFORE = 1, COMPARED = 2;
const HEAD = 16, ENDS = 40;

/**
 * The values of a binary answer: of each a head, and behind it numbers in as many bytes as the key's width needs.
 * @param {ArrayBuffer} buffer @param {number} from @param {number} count
 * @returns {Piece[]}
 */
export function unpack(buffer, from, count) {
  const view = new DataView(buffer), found = /** @type {Piece[]} */ ([]);
  let at = from;
  for (let i = 0; i < count; i++) {
    const kind = view.getUint8(at), size = view.getUint8(at + 1), length = view.getUint32(at + 4, true);
    const all = view.getUint32(at + 8, true);
    at += HEAD;
    if (kind === 0) {
      found.push({ numbers: numbersAt(buffer, at, length, size), all });
      at += (length * size + 7) & ~7;
    } else if (kind === 3) {
      found.push(stripAt(buffer, view, at, length, all));
      at += ENDS + 4 * length;
    } else found.push({ isMissing: true, isPending: kind === 1, isOther: kind === 4 });
  }
  return found;
}

/** @type {Object<number, any>} how numbers of so many bytes are held */
const KINDS = { 1: Uint8Array, 2: Uint16Array, 4: Uint32Array, 8: BigUint64Array };

/** @param {ArrayBuffer} buffer @param {number} at @param {number} length @param {number} size */
function numbersAt(buffer, at, length, size) {
  if (size === 16) {
    const words = new BigUint64Array(buffer, at, 2 * length);
    return Array.from({ length }, (_, i) => words[2 * i] | words[2 * i + 1] << 64n);
  }
  return new KINDS[size](buffer, at, length);
}

/**
 * @param {ArrayBuffer} buffer @param {DataView} view @param {number} at @param {number} length @param {number} all
 * @returns {Piece}
 */
function stripAt(buffer, view, at, length, all) {
  /** @param {number} from */
  const number = from => view.getBigUint64(from, true) | view.getBigUint64(from + 8, true) << 64n;
  const count = view.getUint32(at + 36, true), flags = new Uint8Array(buffer, at + ENDS + 3 * length, length);
  const changed = new Set();
  flags.forEach((flag, i) => { if (flag) changed.add(i); });
  return {
    isStrip: true, low: number(at), high: number(at + 16), ones: view.getUint32(at + 32, true), all, count,
    changed: count ? changed : null, numbers: new Uint8Array(buffer, at + ENDS, 3 * length),
  };
}

const AGAIN = 2000, MOST_OPENING = 1000, BEHIND_MARK = 8, MOST_BYTES = 65_536 + 1_024;

/** Requests, and news by a stream of events. */
class Requests {
  /** @param {(version: number) => void} told @param {(isOver: boolean) => void} broken is told whether it is over */
  constructor(told, broken) {
    this.told = told;
    this.broken = broken;
  }

  begin() {
    const news = new EventSource("news");
    news.addEventListener("message", event => this.told(Number(event.data)));
    news.addEventListener("error", () => this.broken(news.readyState === EventSource.CLOSED));
  }

  /**
   * What is asked for, by a name and numbers.
   * @param {string} name @param {Object<string, number>} numbers
   */
  async get(name, numbers) {
    const query = Object.entries(numbers).map(each => each.join("=")).join("&");
    return (await fetch(`${name}?${query}`, { cache: "no-store" })).text();
  }

  /**
   * The answer to a post: a text, or bytes, or null where it is too long.
   * @param {string} name @param {any} body
   */
  async post(name, body) {
    const headers = { "Content-Type": "application/json" };
    const answer = await fetch(name, { method: "POST", headers, body: JSON.stringify(body) });
    if (answer.status === 413) return null;
    return answer.headers.get("Content-Type") === "application/json" ? answer.text() : answer.arrayBuffer();
  }
}

/** One socket for all of it: what is asked has a mark, and so has its answer. News come between them. */
class Wire {
  /** @param {WebSocket} socket @param {(version: number) => void} told @param {(isOver: boolean) => void} broken */
  constructor(socket, told, broken) {
    this.told = told;
    this.broken = broken;
    this.marks = 0;
    /** @type {Map<number, {answer: (data: any) => void, fail: (why: any) => void}>} */
    this.asked = new Map();
    this.socket = socket;
    this.use(socket);
  }

  /**
   * An open socket, or null where none can be had soon.
   * @returns {Promise<WebSocket|null>}
   */
  static open() {
    if (!window.WebSocket) return Promise.resolve(null);
    return new Promise(go => {
      const socket = new WebSocket(new URL("socket", location.href.replace(/^http/, "ws")).href);
      const late = setTimeout(() => { socket.onopen = () => socket.close(); go(null); }, MOST_OPENING);
      socket.binaryType = "arraybuffer";
      socket.onopen = () => { clearTimeout(late); go(socket); };
      socket.onerror = socket.onclose = () => { clearTimeout(late); go(null); };
    });
  }

  /** @param {WebSocket} socket */
  use(socket) {
    this.socket = socket;
    socket.onmessage = event => this.hear(event.data);
    socket.onclose = () => this.close();
    socket.onerror = null;
  }

  begin() { /* (news come by themselves) */ }

  /** @param {string|ArrayBuffer} data */
  hear(data) {
    const isText = typeof data === "string", said = isText ? JSON.parse(data) : null;
    const mark = isText ? said.mark : new DataView(data).getUint32(0, true);
    if (mark === undefined) { this.told(said.version); return; }
    const asked = this.asked.get(mark);
    this.asked.delete(mark);
    asked?.answer(data);
  }

  /** Nobody answers what was asked. Another socket is tried for again and again. */
  async close() {
    for (const { fail } of this.asked.values()) fail(new Error("the socket is closed"));
    this.asked.clear();
    this.broken(true);
    for (let socket = null; !socket;) {
      await new Promise(go => { setTimeout(go, AGAIN); });
      socket = await Wire.open();
      if (socket) this.use(socket);
    }
    this.broken(false);
  }

  /** @param {string} name @param {Object<string, number>} numbers @returns {Promise<string>} */
  get(name, numbers) {
    return this.post(name, Object.fromEntries(Object.entries(numbers).map(([key, number]) => [key, String(number)])));
  }

  /** @param {string} name @param {any} body @returns {Promise<any>} */
  async post(name, body) {
    const mark = ++this.marks, text = JSON.stringify({ ...body, do: name, mark: String(mark) });
    if (new TextEncoder().encode(text).length > MOST_BYTES) return null;
    if (this.socket.readyState !== WebSocket.OPEN) throw new Error("the socket is closed");
    return new Promise((answer, fail) => {
      this.asked.set(mark, { answer, fail });
      this.socket.send(text);
    });
  }
}

/** A server. What is new is asked for once at a time. */
export class Served {
  /** @param {(news: News) => void} heard is told what is new @param {() => void} lost is called where nobody answers */
  constructor(heard, lost) {
    this.heard = heard;
    this.lost = lost;
    this.seen = 0;
    this.told = 0;
    this.out = 0;
    this.asks = 0;
    this.edits = 0;
    this.bytes = { text: 0, binary: 0, messages: 0 };
    // By its name a session knows which tab edits.
    this.tab = [...crypto.getRandomValues(new Uint32Array(4))].map(word => word.toString(36)).join("");
    /** @type {Requests|Wire} */
    this.wire = new Requests(this.hearVersion, this.hearBroken);
  }

  /** @param {number} version the one that the server has */
  hearVersion = version => { this.told = version; if (version > this.seen) this.refresh(); };
  /** @param {boolean} isOver where nobody answers what is asked then, the server has ended */
  hearBroken = isOver => { if (isOver) this.lost(); else this.refresh(); };
  get canEdit() { return true; }

  /** Begins with a socket, or with requests where there is none. */
  async start() {
    const socket = await Wire.open();
    if (socket) this.wire = new Wire(socket, this.hearVersion, this.hearBroken);
    this.wire.begin();
    await this.refresh();
  }

  /** Asks what is new. Where something is done meanwhile, its answer brings that, and this one isn't heard. */
  async refresh() {
    if (this.out) return;
    this.out++;
    const { asks } = this;
    try {
      const text = await this.wire.get("state", { seen: this.seen });
      this.count("text", text.length);
      if (asks === this.asks) this.hear(JSON.parse(text));
      this.ended(true);
    } catch { this.lost(); this.ended(false); }
  }

  /**
   * An answer behind another version than the one that is shown is dropped: what is new is asked for again.
   * @param {News} news
   */
  hear(news) {
    if (news.since !== this.seen) { this.told = Math.max(this.told, news.version); return; }
    this.seen = news.version;
    this.edits = news.edits;
    this.heard(news);
  }

  /**
   * An answer is there, or nobody answers: then nothing more is asked until there is news again.
   * @param {boolean} isThere
   */
  ended(isThere) {
    this.out--;
    if (isThere && !this.out && this.told > this.seen) this.refresh();
  }

  /** @param {"text"|"binary"} kind @param {number} length */
  count(kind, length) { this.bytes[kind] += length; this.bytes.messages++; }

  /**
   * Asks for something to be done. The answer brings what is new behind it.
   * @param {string} name @param {Object<string, string>} [body] @returns {Promise<Said>}
   */
  async ask(name, body = {}) {
    this.out++;
    this.asks++;
    let isThere = false;
    try {
      const text = await this.wire.post(name, { tab: this.tab, seen: String(this.seen), ...body });
      isThere = true;
      if (text === null) return { refused: { text: "The line is too long.", hint: "", at: null } };
      const said = JSON.parse(text);
      this.count("text", text.length);
      if (said.state) this.hear(said.state);
      const wrong = said.wrong || said.stopped;
      return wrong ? { refused: { text: wrong, hint: "", at: null } } : said;
    } catch { this.lost(); return { refused: { text: "Nobody answers.", hint: "", at: null } }; }
    finally { this.ended(isThere); }
  }

  /** @param {string} line @param {string} [was] the instruction that its row has for who wrote the command */
  edit(line, was) { return this.ask("command", was === undefined ? { line } : { line, was }); }

  /** @param {Look[]} looks @returns {Promise<Piece[]|null>} */
  async look(looks) {
    const wanted = looks.map(each => each.join(" ")).join("\n");
    const body = { seen: String(this.seen), edits: String(this.edits), looks: wanted };
    try {
      const data = await this.wire.post("looks", body);
      if (!(data instanceof ArrayBuffer)) return null;
      this.count("binary", data.byteLength);
      return unpack(data, this.wire instanceof Wire ? BEHIND_MARK : 0, looks.length);
    } catch { this.lost(); return null; }
  }

  /**
   * The edit that touched a row last.
   * @param {number} row
   */
  async since(row) {
    try {
      return JSON.parse(await this.wire.get("since", { row })).line || "";
    } catch { return ""; }
  }
}

/**
 * The page itself: moments of a script, each with its rows, and the numbers of all values in one block of bytes. A
 * moment has the values that are other than in those before it.
 */
export class Embedded {
  /** @param {(news: News) => void} heard @param {any} data */
  constructor(heard, data) {
    this.heard = heard;
    this.data = data;
    const text = atob(data.block), block = new Uint8Array(text.length);
    for (let i = 0; i < text.length; i++) block[i] = text.charCodeAt(i);
    this.block = block.buffer;
    this.seen = this.told = 0;
    this.edits = 0;
    this.moment = 0;
    this.bytes = { text: 0, binary: block.length, messages: 0 };
  }
  get canEdit() { return false; }

  async start() {
    const { hello, moments } = this.data;
    this.hear({ ...hello, since: 0 });
    this.go(moments.length - 1);
  }

  /** @param {News} news */
  hear(news) {
    this.seen = this.told = news.version;
    this.edits = news.edits;
    this.heard(news);
  }

  /**
   * Shows a moment. Nothing that was shown of another one stays.
   * @param {number} to
   */
  go(to) {
    const { moments } = this.data, moment = moments[to];
    const declared = moments.slice(0, to + 1).reverse().find((/** @type {any} */ each) => each.sets);
    this.moment = to;
    const open = new Set(unrolled(moment.un)), ids = unrolled(moment.order);
    const done = ids.filter(id => !open.has(id)).flatMap(id => [id, id]);
    this.hear({
      ...moment, sets: declared.sets, fields: declared.fields, done, began: true, since: this.seen,
      version: this.seen + 1, edits: this.edits + 2, moment: to,
    });
  }

  /**
   * Where a value stands in a moment, or undefined.
   * @param {number} to @param {string} key @param {number} row
   */
  place(to, key, row) {
    const name = `${key}@${row}`;
    for (let i = to; i >= 0; i--) {
      const at = this.data.moments[i].values[name];
      if (at !== undefined) return at;
    }
    return undefined;
  }

  /**
   * What a row left in the moment before, where it was settled then.
   * @param {string} key @param {number} row
   */
  before(key, row) {
    const to = this.moment - 1;
    if (to < 0 || unrolled(this.data.moments[to].un).includes(row)) return undefined;
    return this.place(to, key, row);
  }

  /** @param {Look[]} looks @returns {Promise<Piece[]>} */
  async look(looks) {
    return looks.map(([key, row, , which]) => {
      const at = which === BEFORE ? this.before(key, row) : this.place(this.moment, key, row);
      if (at === undefined) return { isMissing: true };
      const [value] = unpack(this.block, at, 1);
      return which === COMPARED && value.isStrip ? this.compared(value, key, row) : value;
    });
  }

  /**
   * A strip with the stretches in which it is other than in the moment before. How many numbers are isn't known.
   * @param {Piece} value @param {string} key @param {number} row @returns {Piece}
   */
  compared(value, key, row) {
    const at = this.before(key, row), was = at === undefined ? null : unpack(this.block, at, 1)[0];
    if (!was?.isStrip) return value;
    const isScaled = was.low === value.low && was.high === value.high;
    const count = value.numbers.length / 3, changed = new Set();
    for (let i = 0; i < count; i++) {
      const isOther = (/** @type {number} */ part) => value.numbers[part * count + i] !== was.numbers[part * count + i];
      if (!isScaled || isOther(0) || isOther(1) || isOther(2)) changed.add(i);
    }
    return { ...value, changed: changed.size ? changed : null, count: changed.size ? -1 : 0 };
  }

  /** @returns {Promise<Said>} */
  async edit() { return { refused: { text: "This page is a record: nothing is edited here.", hint: "", at: null } }; }
  async ask() { return this.edit(); }
}
