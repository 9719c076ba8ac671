// Who did what: the entries of a program, or those of one line.
import { button, element } from "./shown.js";

/** @typedef {import("./seat_link.js").SeatLink} SeatLink */
/** @typedef {[string, number, string, string]} Done */
/** @typedef {{n: number, time: string, name: string, undo: boolean, reply: string, ops: Done[]}} Entry */

const DONE = /** @type {Record<string, string>} */ ({ replace: "", insert: "put in: ", delete: "taken out: " });

/** The panel that says who did what. */
export class Entries {
  /**
   * @param {HTMLElement} panel
   * @param {SeatLink} link
   * @param {(words: string) => void} say
   */
  constructor(panel, link, say) {
    this.panel = panel;
    this.link = link;
    this.say = say;
    this.teaches = false;
    /** @type {Set<number>} */
    this.locked = new Set();
  }

  /**
   * Shows what was done, to one line or to any where 0 is said.
   * @param {number} id
   */
  async open(id) {
    const answer = await this.link.ask("entries", { id }), { panel } = this;
    panel.textContent = "";
    panel.hidden = false;
    panel.append(button("×", () => { panel.hidden = true; }, "close"));
    panel.append(element("h2", "", id ? "Who changed this line" : "Who did what"));
    if (id && this.teaches) panel.append(this.lockButton(id));
    const told = /** @type {Entry[]} */ (answer.entries ?? []);
    panel.append(...told.map(entry => this.drawn(entry)));
    if (!told.length) panel.append(element("p", "", "Nobody has edited it yet."));
  }

  /** @param {number} id */
  lockButton(id) {
    const isLocked = this.locked.has(id);
    return button(isLocked ? "Unlock this line" : "Lock this line", async () => {
      const answer = await this.link.ask(isLocked ? "unlock" : "lock", { ids: [id] });
      this.panel.hidden = true;
      this.say(answer.refused ?? "");
    });
  }

  /** @param {Entry} entry */
  drawn(entry) {
    const place = element("p", "entry"), undone = entry.undo ? " (taken back)" : "";
    place.append(element("b", "", `${entry.time} ${entry.name}${undone}`));
    for (const [op, , text, was] of entry.ops) {
      place.append(element("br"), element("code", "", `${DONE[op] ?? ""}${op === "delete" ? was : text}`));
      if (op === "replace") place.append(element("span", "was", ` in the place of ${was}`));
    }
    if (entry.reply !== "ok") place.append(element("br"), element("span", "isRefused", entry.reply));
    if (this.teaches) place.append(element("br"), button("Back to here", () => this.back(entry.n)));
    return place;
  }

  /** @param {number} n */
  async back(n) {
    const answer = await this.link.ask("back", { n });
    this.panel.hidden = true;
    this.say(answer.refused ?? "");
  }
}
