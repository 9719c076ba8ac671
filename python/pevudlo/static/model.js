// What the page knows of a program: rows with their states, and values by key and the row that wrote them.
// It draws nothing.

/**
 * A value: its numbers by processor, or a strip of it. `was` is what it was before the last edit, where that is known,
 * and `changed` are the processors, or the stretches of a strip, that are other than then.
 * @typedef {{numbers: any, isStrip?: boolean, low?: any, high?: any, ones?: number, all?: number, count?: number,
 *   changed?: Set<number>|null, was?: any, isStale?: boolean, id?: number, form?: any}} Value
 */
/**
 * A row that is refused for its data: its id, the cause, the first processor, and the words for it.
 * @typedef {[number, string, number, string]} Fault
 */
/** @typedef {{text: string, hint: string, at: number|null, reply?: string}} Refused why a command was refused */
/** @typedef {{number: number, line: string, reply: string, refused: Refused|null}} Step a command with its reply */
/**
 * What is new behind a version. Ids stand as ranges. `hello`, the grammar, and whether a file is followed come first;
 * what is other of rows, of what is declared and given, and of faults where it is other; and of how rows run all.
 * @typedef {{hello?: string, grammar?: [string, string, string, number, number, string][], followed?: boolean,
 *   since: number, version: number, edits: number, line: string, order?: number[],
 *   texts?: {ids: number[], texts: string[], of: number[]}, touched?: number[], un?: number[], done?: number[],
 *   sets?: Object<string, number[]>, fields?: [string, string, number][], given?: string[], began?: boolean,
 *   anew?: string[], faults?: Fault[], log?: Step[], text?: number, trouble?: string, moment?: number, on?: boolean,
 *   out?: number, failure?: string, undo?: string, redo?: string, at?: number, of?: number, dropped?: string,
 *   thrown?: string[], editor?: string, notes?: any[], comments?: any, said?: string}} News
 */
/** @typedef {{operands: string[], flags: string[], isRuled: boolean, isStored: boolean, reads: string}} Instruction */
/** @typedef {{writes: string[], reads: string[], context: string|null, set: string|null}} Work */

const MOST_VALUES = 6000;
const FIELD_LETTERS = new Set(["D", "A", "B", "F", "G", "N"]);

/**
 * Ids that stand as ranges, [first, last, ..].
 * @param {number[]|undefined} ranges
 * @returns {number[]}
 */
export function unrolled(ranges) {
  const ids = [];
  for (let i = 0; ranges && i < ranges.length; i += 2) for (let id = ranges[i]; id <= ranges[i + 1]; id++) ids.push(id);
  return ids;
}

export class Program {
  /** @param {News} news what a tab is told first */
  constructor(news) {
    this.name = news.hello;
    this.isFollowed = Boolean(news.followed);
    /** @type {Map<string, Instruction>} */
    this.table = new Map((news.grammar ?? []).map(([name, operands, flags, rules, stores, reads]) => [name, {
      operands: operands ? operands.split(" ") : [], flags: flags ? flags.split(" ") : [],
      isRuled: Boolean(rules), isStored: Boolean(stores), reads,
    }]));
    /** @type {Map<number, Map<string, Value>>} of each row the values that it left, of 0 those at the start */
    this.values = new Map();
    this.count = 0;
    /** @type {Map<string, Work>} */
    this.works = new Map();
    /** @type {Map<string, number>} the most digits that were seen, so that columns stay where they are */
    this.digits = new Map();
    /** @type {Map<number|string, number>} how often a row, or a key's input data, was touched */
    this.touches = new Map();
    this.era = 0;
    /** @type {Map<string, number[]>} the axes of each set */
    this.sets = new Map();
    /** @type {Map<string, {set: string, width: number}>} */
    this.fields = new Map();
    /** @type {number[]} */
    this.ids = [];
    /** @type {Map<number, number>} where each row stands */
    this.at = new Map();
    /** @type {Map<string, number[]>|null} by key the places of the rows that write it, where they are known */
    this.writers = null;
    /** @type {Map<number, string>} the instruction of each row */
    this.text = new Map();
    /** @type {string[]} */
    this.given = [];
    /** @type {Set<number>} */
    this.unsettled = new Set();
    /** @type {Map<number, Fault>} */
    this.faults = new Map();
    /** @type {Set<number|string>} rows and input data that are other than before the last edit, and those it touched */
    this.changedRows = new Set();
    /** @type {Set<number|string>} */
    this.touched = new Set();
    /** @type {Step[]} */
    this.log = [];
    this.version = 0;
    this.edits = 0;
    this.isOne = false;
    this.line = "";
    /** @type {Partial<News>} */
    this.state = {};
    this.fresh = 0;
    /** @type {any} of a script the lines that stand between its rows, and above them */
    this.script = { notes: [], comments: {}, intro: [], left: "", said: "" };
    this.take({ ...news, since: 0 });
  }

  /** @param {Object<string, number[]>} sets @param {[string, string, number][]} fields */
  declare(sets, fields) {
    const before = JSON.stringify([...this.sets, ...this.fields]);
    this.sets = new Map(Object.entries(sets));
    this.fields = new Map(fields.map(([name, set, width]) => [name, { set, width }]));
    // What was known of names that are others now is forgotten.
    const now = JSON.stringify([...this.sets, ...this.fields]);
    if (!now.startsWith(before.slice(0, -1))) this.forgetAll();
    this.works.clear();
    this.writers = null;
  }

  index() {
    this.at = new Map(this.ids.map((id, i) => [id, i]));
    this.writers = null;
  }

  /** @param {string} key */
  axes(key) { return this.sets.get(this.setOf(key) ?? "") || [1]; }
  /** @param {string} key */
  setOf(key) {
    const dot = key.indexOf(".");
    return dot < 0 ? this.fields.get(key)?.set : key.slice(0, dot);
  }
  /** @param {string} key */
  width(key) { return key.includes(".") ? 1 : this.fields.get(key)?.width || 1; }
  /** @param {string} key */
  processors(key) { return this.axes(key).reduce((a, b) => a * b, 1); }

  /**
   * The keys that an instruction writes, those that it reads, and the context that rules it.
   * @param {string} text
   * @returns {Work}
   */
  work(text) {
    let work = this.works.get(text);
    if (!work) this.works.set(text, work = this.readWork(text));
    return work;
  }

  /** @param {string} text @returns {Work} */
  readWork(text) {
    const words = text.split(" "), kind = this.table.get(words[0]), writes = new Set(), reads = new Set();
    if (!kind) return { writes: [], reads: [], context: null, set: null };
    let set = null;
    kind.operands.forEach((letter, i) => {
      const word = words[i + 1];
      if (letter === "S") set ??= word;
      if (!FIELD_LETTERS.has(letter) || word === "none") return;
      set ??= this.fields.get(word)?.set ?? null;
      const isWritten = letter === "D" || letter === "N" || (letter === "F" && kind.isStored);
      (isWritten ? writes : reads).add(word);
    });
    for (const flag of kind.flags) writes.add(`${set}.${flag}`);
    if (kind.reads) reads.add(`${set}.${kind.reads}`);
    return { writes: [...writes], reads: [...reads], context: kind.isRuled ? `${set}.context` : null, set };
  }

  /**
   * The row that gives a key its value just after the row of a place (-1 is the start), or 0.
   * @param {string} key @param {number} place
   */
  writer(key, place) {
    this.writers ??= this.findWriters();
    const at = this.writers.get(key);
    if (!at) return 0;
    let low = 0, high = at.length;
    while (low < high) {
      const middle = (low + high) >> 1;
      if (at[middle] <= place) low = middle + 1; else high = middle;
    }
    return low ? this.ids[at[low - 1]] : 0;
  }

  /** @returns {Map<string, number[]>} */
  findWriters() {
    const writers = new Map();
    this.ids.forEach((id, i) => {
      for (const key of this.work(this.text.get(id) ?? "").writes) {
        const places = writers.get(key);
        if (places) places.push(i); else writers.set(key, [i]);
      }
    });
    return writers;
  }

  /**
   * The key whose value stands in a row's line: a field before flags.
   * @param {string} text
   */
  mainKey(text) {
    const { writes } = this.work(text);
    return writes.find(key => !key.includes(".")) ?? writes.find(key => !/carry|overflow/.test(key)) ?? writes[0];
  }

  /**
   * Keys of a set and a width share their columns.
   * @param {string} key
   */
  columns(key) { return `${this.setOf(key)} ${this.width(key)}`; }
  /** @param {string} key @param {number} row @returns {Value|undefined} */
  value(key, row) { return this.values.get(row)?.get(key); }
  /** @param {number} row */
  isSettled(row) { return row <= 0 || (this.at.has(row) && !this.unsettled.has(row)); }
  /**
   * What a value is asked for with: another one where an edit touched its row.
   * @param {string} key @param {number} row
   */
  stamp(key, row) { return `${this.era} ${this.touches.get(row || `in ${key}`) || 0}`; }
  /** @param {string} key @param {number} row */
  isTouched(key, row) { return row ? this.touched.has(row) : this.touched.has(`in ${key}`); }

  /**
   * Takes in what is other. Null where it was asked for behind another version than this, and what moved else.
   * @param {News} news
   * @returns {{rows: boolean, texts: number[], isEdit: boolean}|null}
   */
  take(news) {
    if (news.since !== this.version) return null;
    const isEdit = news.edits !== this.edits;
    if (isEdit) this.beginEdit(news.edits === this.edits + 1);
    if (news.sets) this.declare(news.sets, news.fields ?? []);
    if (news.began) this.forgetAll();
    const moved = { rows: this.takeRows(news), texts: unrolled(news.texts?.ids), isEdit };
    for (const id of unrolled(news.touched)) this.touch(id);
    for (const key of news.anew || []) this.touch(0, key);
    for (const id of unrolled(news.un)) this.unsettled.add(id);
    for (const id of unrolled(news.done)) this.unsettled.delete(id);
    if (news.faults) this.faults = new Map(news.faults.map(fault => [fault[0], fault]));
    if (news.given) { this.given = news.given; moved.rows = true; }
    if (news.log) this.log = [...this.log, ...news.log].slice(-60);
    this.state = { ...this.state, ...news };
    this.version = news.version;
    this.edits = news.edits;
    if (isEdit) this.line = news.line;
    return moved;
  }

  /**
   * Marks are of the last edit alone. What values were before it is known where one edit came.
   * @param {boolean} isOne
   */
  beginEdit(isOne) {
    this.changedRows.clear();
    this.touched.clear();
    for (const [row, byKey] of this.values) {
      for (const [key, value] of byKey) {
        value.changed = null;
        value.was = null;
        if (value.isStale || !isOne) { if (value.isStale) this.drop(row, key); }
      }
    }
    this.isOne = isOne;
  }

  /** @param {News} news */
  takeRows(news) {
    let isMoved = Boolean(news.sets);
    if (news.texts) {
      const { ids, texts, of } = news.texts;
      unrolled(ids).forEach((id, i) => {
        if (!this.text.has(id) && this.version) this.fresh = id;
        this.text.set(id, texts[of[i]]);
      });
      this.writers = null;
    }
    if (news.order) {
      const before = this.ids;
      this.ids = unrolled(news.order);
      const now = new Set(this.ids);
      for (const id of before) if (!now.has(id)) this.forgetRow(id);
      this.index();
      isMoved = true;
    }
    return isMoved;
  }

  /** @param {number} id */
  forgetRow(id) {
    this.text.delete(id);
    this.unsettled.delete(id);
    this.count -= this.values.get(id)?.size || 0;
    this.values.delete(id);
    this.touches.set(id, (this.touches.get(id) || 0) + 1);
  }
  forgetAll() {
    this.values.clear();
    this.count = 0;
    this.era++;
  }
  /** @param {number} row @param {string} key */
  drop(row, key) { if (this.values.get(row)?.delete(key)) this.count--; }

  /**
   * What a row wrote may be another now, or input data. What it was is kept, to tell what an edit changes.
   * @param {number} row @param {string} [key]
   */
  touch(row, key) {
    const name = row || `in ${key}`, writes = row ? this.work(this.text.get(row) ?? "").writes : [key];
    this.touched.add(name);
    this.touches.set(name, (this.touches.get(name) || 0) + 1);
    for (const [each, value] of this.values.get(row) || []) {
      if (!row && each !== key) continue;
      // (one that went stale twice was of two edits ago)
      if (value.isStale || !this.isOne || !writes.includes(each)) this.drop(row, each); else value.isStale = true;
    }
  }

  /**
   * A value that came. It is compared with what the row left before the edit: here alone it is decided what changed.
   * @param {string} key @param {number} row @param {Value} came
   */
  put(key, row, came) {
    const old = this.value(key, row), isTouched = this.isTouched(key, row);
    // Two answers for one value, its strip and its numbers, come in either order: what it was before the edit is kept.
    const known = old?.isStale ? (old.isStrip ? null : old.numbers) : old?.was;
    came.was = isTouched ? came.was ?? known ?? null : null;
    if (came.isStrip) { if (!isTouched || !came.count) came.changed = null; }
    else came.changed = came.was && came.was.length === came.numbers.length ? differing(came.was, came.numbers) : null;
    if (came.changed) this.changedRows.add(row || `in ${key}`);
    if (!came.isStrip) this.noteDigits(key, came.numbers);
    let byKey = this.values.get(row);
    if (!byKey) this.values.set(row, byKey = new Map());
    if (!byKey.has(key)) this.count++;
    byKey.set(key, came);
    if (this.count > MOST_VALUES) this.forgetSome();
  }

  /** @param {string} key @param {any} numbers */
  noteDigits(key, numbers) {
    if (this.width(key) === 1) return;
    let most = numbers[0];
    for (const number of numbers) if (number > most) most = number;
    const digits = String(most ?? 0).length, columns = this.columns(key);
    if (digits > (this.digits.get(columns) || 0)) this.digits.set(columns, digits);
  }

  /** Of too many values those that came first go. */
  forgetSome() {
    for (const [row, byKey] of this.values) {
      if (this.count <= MOST_VALUES * 2 / 3) break;
      this.count -= byKey.size;
      this.values.delete(row);
    }
  }
}

/**
 * The processors at which two values differ, or null.
 * @param {any} was @param {any} now
 */
function differing(was, now) {
  const changed = new Set();
  for (let i = 0; i < now.length; i++) if (was[i] !== now[i]) changed.add(i);
  return changed.size ? changed : null;
}
