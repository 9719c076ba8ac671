// The lines of a program: each is edited in its place, and beside it stands what it gives.
import { draw, drawAll, element, visible } from "./shown.js";

/** @typedef {import("./seat_link.js").SeatLink} SeatLink */
/** @typedef {import("./seat_link.js").Operation} Operation */
/** @typedef {import("./seat_link.js").Text} Text */
/** @typedef {{id: number, text: string, by: number, place: HTMLElement}} Line */
/** @typedef {{op: string, line: Line, was: string, text: string, made?: Line}} Wish */

const MOST_LOOKS = 64, STILL = 600, LAST = -1;

/** A program on the page. */
export class Sheet {
  /**
   * @param {HTMLElement} root @param {HTMLElement} panel @param {SeatLink} link @param {(words: string) => void} say
   */
  constructor(root, panel, link, say) {
    this.root = root;
    this.panel = panel;
    this.link = link;
    this.say = say;
    /** @type {Line[]} */
    this.lines = [];
    /** @type {Map<number, Line>} */
    this.known = new Map();
    this.me = 0;
    /** @type {Map<number, string>} */
    this.people = new Map();
    /** @type {Set<number>} */
    this.locked = new Set();
    this.mayChangeLocked = false;
    /** @type {(id: number) => void} */
    this.asked = () => {};
    this.canEdit = false;
    this.sendsStill = false;
    /** @type {Set<number>} */
    this.onScreen = new Set();
    this.looked = "";
    /** @type {{line: Line, was: string, input: HTMLInputElement}|null} */
    this.edited = null;
    // What was sent, up to its answer.
    this.chain = Promise.resolve();
    // Lines that were put in here have ids below 0 until they are answered.
    this.lastMade = LAST - 1;
    this.timer = 0;
    this.lookTimer = 0;
    this.observer = new IntersectionObserver(seen => this.scrolled(seen), { rootMargin: "100px" });
    root.addEventListener("click", event => this.clicked(event));
  }

  // What is told.

  /**
   * The whole text.
   * @param {Text} text
   */
  entered(text) {
    this.edited = null;
    this.observer.disconnect();
    this.onScreen.clear();
    this.known.clear();
    this.looked = "";
    this.root.textContent = "";
    this.lines = text.lines.map(([id, words, by]) => this.made(id, words, by));
    this.root.append(...this.lines.map(line => line.place));
    this.numbered(0);
  }

  /** @param {number} id @param {string} text @param {number} by @returns {Line} */
  made(id, text, by) {
    const place = element("div", "line");
    place.setAttribute("role", "listitem");
    place.dataset.id = String(id);
    place.append(element("span", "number"), element("i", "bar"), element("span", "text"), element("span", "gives"));
    const line = { id, text, by, place };
    this.known.set(id, line);
    this.drawn(line);
    this.observer.observe(place);
    return line;
  }

  /** @param {Line} line */
  drawn(line) {
    const [, bar, text] = /** @type {HTMLElement[]} */ ([...line.place.children]);
    line.place.classList.toggle("isMine", line.by === this.me);
    line.place.classList.remove("isSent");
    bar.title = line.by === this.me ? "written by you" : `written by ${visible(this.people.get(line.by) ?? "somebody")}`;
    bar.textContent = markOf(line.by);
    bar.style.color = colourOf(line.by);
    if (this.edited?.line === line) return;
    text.textContent = visible(line.text);
    text.classList.toggle("isComment", line.text.startsWith("#"));
  }

  /**
   * Numbers the lines from one on.
   * @param {number} from
   */
  numbered(from) {
    for (let at = from; at < this.lines.length; at++) {
      const [number] = this.lines[at].place.children;
      number.textContent = String(at + 1);
    }
  }

  /**
   * An operation that was done.
   * @param {Operation} operation
   */
  done(operation) {
    const line = this.known.get(operation.id);
    if (operation.op === "insert") this.put(operation);
    else if (line && operation.op === "replace") {
      line.text = operation.text ?? "";
      line.by = operation.by;
      this.drawn(line);
    } else if (line) this.gone(line);
  }

  /** @param {Operation} operation */
  put(operation) {
    const after = operation.after ? this.known.get(operation.after) : undefined, known = this.known.get(operation.id);
    const line = known ?? this.made(operation.id, operation.text ?? "", operation.by);
    const at = after ? this.lines.indexOf(after) + 1 : 0;
    if (known && this.lines[at] === known) return;
    if (known) this.lines.splice(this.lines.indexOf(known), 1);
    this.putBehind(after, line);
  }

  /**
   * Puts a line in behind another one, or at the start.
   * @param {Line|undefined} after
   * @param {Line} line
   */
  putBehind(after, line) {
    const at = after ? this.lines.indexOf(after) + 1 : 0;
    this.lines.splice(at, 0, line);
    this.root.insertBefore(line.place, after ? after.place.nextSibling : this.root.firstChild);
    this.numbered(at);
  }

  /** @param {Line} line */
  gone(line) {
    const at = this.lines.indexOf(line);
    if (this.edited?.line === line) this.edited = null;
    this.observer.unobserve(line.place);
    this.onScreen.delete(line.id);
    this.known.delete(line.id);
    this.lines.splice(at, 1);
    line.place.remove();
    this.numbered(at);
  }

  /**
   * What a line gives.
   * @param {number} id @param {import("./shown.js").Given} given
   */
  gives(id, given) {
    const line = this.known.get(id);
    if (line) draw(/** @type {HTMLElement} */ (line.place.children[3]), given, key => this.open(id, key));
  }

  /**
   * All numbers of a key.
   * @param {number} id @param {string} key
   */
  async open(id, key) {
    const answer = await this.link.ask("numbers", { id, key });
    drawAll(this.panel, answer.value ?? null);
  }

  /**
   * Where somebody's caret is.
   * @param {number} seat @param {[number, number, string, string]|null} told
   */
  caret(seat, told) {
    this.root.querySelectorAll(`.caret[data-seat="${seat}"]`).forEach(each => each.remove());
    const line = told ? this.known.get(told[0]) : null;
    if (!line || !told) return;
    const mark = element("span", "caret", told[3] ? `${told[2]}: ${told[3]}` : told[2]);
    mark.dataset.seat = String(seat);
    mark.style.color = colourOf(seat);
    mark.prepend(`${markOf(seat)} `);
    line.place.children[2].append(mark);
  }

  /**
   * Which lines are locked.
   * @param {number[]} ids
   */
  lock(ids) {
    this.locked = new Set(ids);
    this.root.querySelectorAll(".isLocked").forEach(each => each.classList.remove("isLocked"));
    for (const id of ids) this.known.get(id)?.place.classList.add("isLocked");
  }

  // What is looked at.

  /** @param {IntersectionObserverEntry[]} seen */
  scrolled(seen) {
    for (const entry of seen) {
      const id = Number(/** @type {HTMLElement} */ (entry.target).dataset.id);
      if (entry.isIntersecting) this.onScreen.add(id);
      else this.onScreen.delete(id);
    }
    clearTimeout(this.lookTimer);
    this.lookTimer = setTimeout(() => this.look(), 20);
  }

  look() {
    const ids = [...this.onScreen].filter(id => id > 0).slice(0, MOST_LOOKS), told = ids.join(" ");
    if (told !== this.looked) {
      this.looked = told;
      this.link.tell("look", { ids });
    }
  }

  // What is typed.

  /** @param {Event} event */
  clicked(event) {
    const target = /** @type {HTMLElement} */ (event.target);
    const place = /** @type {HTMLElement|null} */ (target.closest(".line"));
    if (!place || target.closest(".gives") || target.closest("input")) return;
    const line = this.known.get(Number(place.dataset.id));
    if (!line) return;
    if (target.closest(".number")) this.asked(line.id);
    else if (this.locked.has(line.id) && !this.mayChangeLocked) this.say("This line is locked by who teaches.");
    else if (this.canEdit) this.edit(line, line.text.length);
  }

  /**
   * Edits a line.
   * @param {Line} line @param {number} column
   */
  edit(line, column) {
    this.leave();
    const input = element("input");
    input.value = line.text;
    input.spellcheck = false;
    input.setAttribute("aria-label", "The text of the line");
    this.edited = { line, was: line.text, input };
    const place = line.place.children[2];
    place.textContent = "";
    place.append(input);
    input.addEventListener("keydown", event => this.pressed(event));
    input.addEventListener("input", () => this.typed());
    input.addEventListener("paste", event => this.pasted(event));
    input.addEventListener("blur", () => this.leave());
    input.focus();
    input.setSelectionRange(column, column);
    this.told();
  }

  /** Tells where the caret is. */
  told() {
    if (!this.edited || this.edited.line.id < 1) return;
    const { line, was, input } = this.edited;
    const text = input.value === was ? "" : input.value.slice(0, 200);
    this.link.tell("caret", { id: line.id, column: input.selectionStart ?? 0, text });
  }

  typed() {
    clearTimeout(this.timer);
    this.timer = setTimeout(() => { this.told(); if (this.sendsStill) this.send([]); }, STILL);
  }

  /**
   * Sends what was typed, and lines that come behind it.
   * @param {string[]} more
   */
  send(more) {
    clearTimeout(this.timer);
    const edited = this.edited;
    if (!edited) return;
    /** @type {Wish[]} */
    const wishes = [], { line, was, input } = edited;
    if (input.value !== was) {
      wishes.push({ op: "replace", line, was, text: input.value });
      edited.was = input.value;
    }
    let last = line;
    for (const text of more) {
      const made = this.made(--this.lastMade, text, this.me);
      wishes.push({ op: "insert", line: last, was: "", text, made });
      this.putBehind(last, made);
      last = made;
    }
    if (wishes.length) this.post(wishes);
    if (more.length) this.edit(last, 0);
  }

  /**
   * Sends wishes once the earlier ones are answered, since lines have their ids then.
   * @param {Wish[]} wishes
   */
  post(wishes) {
    this.chain = this.chain.then(async () => {
      if (wishes.some(({ line, made }) => !made && this.known.get(line.id) !== line)) return;
      const changes = wishes.map(({ op, line, was, text }) => ({ op, id: Math.max(line.id, LAST), was, text }));
      await this.link.ask("edit", { changes }, answer => this.answered(wishes, answer));
    });
  }

  /**
   * @param {Wish[]} wishes
   * @param {import("./seat_link.js").Answer} answer
   */
  answered(wishes, answer) {
    const put = wishes.flatMap(({ made }) => made ?? []);
    if (!answer.refused) {
      put.forEach((line, at) => this.named(line, answer.put[at]));
      this.say((answer.clashes ?? []).map(clashWords).join("\n"));
      return;
    }
    this.say([answer.refused, ...wishes.map(({ text }) => text)].filter(Boolean).join("\n"));
    put.forEach(line => { if (this.known.get(line.id) === line) this.gone(line); });
    for (const { line, made } of wishes) if (!made) this.again(line);
  }

  /**
   * Gives a line that was put in here the id that it has.
   * @param {Line} line
   * @param {number} id
   */
  named(line, id) {
    if (this.known.get(line.id) !== line) return;
    this.known.delete(line.id);
    this.onScreen.delete(line.id);
    line.id = id;
    line.place.dataset.id = String(id);
    this.known.set(id, line);
    this.observer.unobserve(line.place);
    this.observer.observe(line.place);
  }

  /**
   * Shows a line as the server has it.
   * @param {Line} line
   */
  again(line) {
    if (this.edited?.line === line) this.edited.was = line.text;
    else this.drawn(line);
  }

  /** Ends the edit, and sends it. */
  leave() {
    const edited = this.edited;
    if (!edited) return;
    const isOther = edited.input.value !== edited.was;
    this.send([]);
    this.edited = null;
    const place = /** @type {HTMLElement} */ (edited.line.place.children[2]);
    place.textContent = visible(edited.input.value);
    edited.line.place.classList.toggle("isSent", isOther);
    if (!isOther) this.drawn(edited.line);
  }

  /** @param {KeyboardEvent} event */
  pressed(event) {
    const edited = this.edited;
    if (!edited || event.isComposing) return;
    const at = this.lines.indexOf(edited.line), { input } = edited;
    if (event.key === "Enter") this.split(input.selectionStart ?? input.value.length);
    else if (event.key === "Escape") {
      input.value = edited.was;
      this.leave();
    } else if (event.key === "ArrowUp" && at > 0) this.edit(this.lines[at - 1], input.selectionStart ?? 0);
    else if (event.key === "ArrowDown" && at + 1 < this.lines.length) {
      this.edit(this.lines[at + 1], input.selectionStart ?? 0);
    } else if (event.key === "Backspace" && !input.value && this.lines.length > 1) this.takeOut(edited, at);
    else return;
    event.preventDefault();
  }

  /**
   * Takes an empty line out.
   * @param {{line: Line, was: string}} edited
   * @param {number} at
   */
  takeOut(edited, at) {
    const { line, was } = edited, other = this.lines[at ? at - 1 : 1];
    this.edited = null;
    this.post([{ op: "delete", line, was, text: "" }]);
    this.edit(other, at ? other.text.length : 0);
  }

  /**
   * Cuts the line that is edited in two, the second of which is edited then.
   * @param {number} column
   */
  split(column) {
    const edited = this.edited;
    if (!edited) return;
    const { input } = edited, rest = input.value.slice(column);
    input.value = input.value.slice(0, column);
    this.send([rest]);
  }

  /**
   * Several lines that are put in at once.
   * @param {ClipboardEvent} event
   */
  pasted(event) {
    const text = event.clipboardData?.getData("text") ?? "", edited = this.edited;
    if (!edited || !/[\r\n]/.test(text)) return;
    event.preventDefault();
    const { input } = edited, lines = text.split(/\r\n|\r|\n/);
    if (lines.at(-1) === "") lines.pop();
    const rest = input.value.slice(input.selectionEnd ?? input.value.length);
    lines[0] = input.value.slice(0, input.selectionStart ?? input.value.length) + lines[0];
    lines[lines.length - 1] += rest;
    input.value = lines[0];
    this.send(lines.slice(1));
  }
}

const MARKS = "●▲■◆★✚♥♣♠▼◀▶";

/**
 * The sign of a seat.
 * @param {number} seat
 */
export function markOf(seat) { return MARKS[seat % MARKS.length]; }

/**
 * The colour of a seat.
 * @param {number} seat
 */
export function colourOf(seat) { return `hsl(${(seat * 137) % 360} 65% 45%)`; }

/** @param {{theirs: string|null, mine: string, by: string}} clash */
function clashWords(clash) {
  const by = clash.by || "Somebody", mine = clash.mine ? ` Yours stands below it as a comment: ${clash.mine}` : "";
  if (clash.theirs === null) return `The line is gone.${mine}`;
  return `${by} was first: ${clash.theirs}.${mine}`;
}
