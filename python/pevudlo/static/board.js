// The board of who teaches: a row a student, a column a check.
import { button, element, visible } from "./shown.js";

/** @typedef {import("./seat_link.js").SeatLink} SeatLink */

/**
 * @typedef {object} Row
 * @property {string} name @property {boolean} here @property {boolean} closed @property {[string, string][]} checks
 * @property {number} refused @property {number} faults @property {number} left
 * @property {number} edited @property {number} handed
 */

const KINDS = /** @type {Record<string, [string, string]>} */ ({
  "✓": ["right", "right"], "✗": ["wrong", "wrong"], "○": ["", "pending"], "–": ["", "nothing"],
});

/**
 * A time of the day, or nothing.
 * @param {number} seconds
 */
function clock(seconds) { return seconds ? new Date(1000 * seconds).toLocaleTimeString("en-GB") : ""; }

/** The board. */
export class Board {
  /**
   * @param {HTMLElement} root @param {SeatLink} link @param {(words: string) => void} say
   * @param {(seat: number, name: string) => void} opened
   */
  constructor(root, link, say, opened) {
    this.root = root;
    this.link = link;
    this.say = say;
    this.opened = opened;
    /** @type {Map<number, HTMLTableRowElement>} */
    this.rows = new Map();
    this.open = 0;
  }

  /** @param {string[]} checks @param {[number, string][]} seats */
  begin(checks, seats) {
    this.root.hidden = false;
    this.root.textContent = "";
    this.rows.clear();
    const table = element("table"), head = element("tr");
    const names = ["", "student", ...checks, "lines refused", "rows refused", "last edit", "handed in", ""];
    head.append(...names.map(name => element("th", "", name)));
    table.append(head);
    for (const [seat, name] of seats) {
      const row = element("tr");
      this.rows.set(seat, row);
      this.fill(row, seat, checks.length, name);
      table.append(row);
    }
    this.root.append(this.buttons(), table);
  }

  buttons() {
    const bar = element("p");
    const handOut = async (/** @type {number[]|null} */ seats) => {
      const answer = await this.link.ask("hand-out", seats ? { seats } : {});
      this.say(answer.refused ?? `Your program was handed out to ${answer.handed}.`);
    };
    bar.append(
      button("Hand out to all", () => handOut(null), "gives all students your program; theirs can be had back"), " ",
      button("Hand out to those ticked", () => handOut(this.ticked())), " ",
      button("Save all", async () => {
        const answer = await this.link.ask("save");
        this.say(answer.refused ?? `All programs and the board are in ${answer.saved}.`);
      }), " ",
      button("My program", () => this.show(0, "you")),
    );
    return bar;
  }

  ticked() {
    return [...this.rows].filter(([, row]) => row.querySelector("input")?.checked).map(([seat]) => seat);
  }

  /**
   * Cells of a row.
   * @param {HTMLTableRowElement} row @param {number} seat @param {number} checks @param {string} name
   */
  fill(row, seat, checks, name) {
    const tick = element("input"), first = element("td");
    tick.type = "checkbox";
    tick.setAttribute("aria-label", "hand out to this one");
    first.append(tick);
    const named = element("td"), open = button(name, () => this.show(seat, open.textContent ?? ""), "open this program");
    named.append(open);
    const cells = Array.from({ length: checks }, () => element("td", "check")), last = element("td");
    last.append(
      button("Wall", () => this.act("follow", seat), "show this program on the wall"), " ",
      button("New address", () => this.renew(seat), "the old address lets nobody in any more"), " ",
      button("Close", () => this.act("close", seat), "let nobody in at this seat"),
    );
    row.append(first, named, ...cells, element("td"), element("td"), element("td"), element("td"), last);
  }

  /** @param {string} word @param {number} seat */
  async act(word, seat) {
    const answer = await this.link.ask(word, { seat });
    this.say(answer.refused ?? "");
  }

  /** @param {number} seat */
  async renew(seat) {
    const answer = await this.link.ask("renew", { seat });
    this.say(answer.refused ?? `The new address: ${location.origin}/#${answer.token}`);
  }

  /**
   * Opens a program.
   * @param {number} seat @param {string} name
   */
  async show(seat, name) {
    const answer = await this.link.ask("open", { seat });
    if (answer.refused) this.say(answer.refused);
    else {
      this.rows.get(this.open)?.classList.remove("isOpen");
      this.rows.get(seat)?.classList.add("isOpen");
      this.open = seat;
      this.opened(seat, name);
    }
  }

  /**
   * What is new of a student.
   * @param {number} seat @param {Row} told
   */
  told(seat, told) {
    const row = this.rows.get(seat);
    if (!row) return;
    const cells = [...row.children];
    const name = /** @type {HTMLElement} */ (cells[1].firstChild);
    name.textContent = visible(told.name);
    row.classList.toggle("away", !told.here);
    told.checks.forEach(([sign, words], at) => {
      const [kind, said] = KINDS[sign] ?? ["", ""], cell = cells[2 + at];
      cell.className = `check ${kind}`;
      cell.textContent = words ? `${sign} ${words}` : sign;
      cell.setAttribute("aria-label", words || said);
    });
    const rest = [String(told.refused || ""), String(told.faults || ""), clock(told.edited), clock(told.handed)];
    rest.forEach((text, at) => { cells[2 + told.checks.length + at].textContent = text; });
    if (told.closed) cells[cells.length - 2].textContent = `${clock(told.handed)} closed`;
  }
}
