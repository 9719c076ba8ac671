// What is shown and where: the state that the modules of the page share, and small helpers of theirs.

/** @typedef {import("./model.js").Refused} Refused */
/**
 * A line of the list that has a value: of a row, of input data, or of a look of a script, which waits for a row where
 * it is `pending`.
 * @typedef {{t: "row", id: number, text: string, number?: undefined, pending?: undefined}} RowItem
 * @typedef {{t: "in", id: string, key: string, text?: undefined, number?: undefined, pending?: undefined}} InputItem
 * @typedef {{t: "look", id: string, row: number, key: string, text: string, number: number, pending?: number}} LookItem
 * @typedef {RowItem|InputItem|LookItem} ValueItem
 */
/**
 * One that has none: a line of a script that was refused, words, or a row that is being written.
 * @typedef {{t: "wrong", id: string, text: string, number: number, refused: Refused}} WrongItem
 * @typedef {{t: "head"|"note"|"rest", id: string, text: string, more?: string}} WordsItem
 * @typedef {WrongItem|WordsItem|{t: "new", id: "new", text?: undefined}} OtherItem
 */
/** @typedef {ValueItem|OtherItem} Item */
/**
 * What is typed into a line: of a row that had the instruction `was`, or of a new one behind the row `after`.
 * @typedef {{kind: "replace"|"insert", id: number|"new", after?: number, was?: string, text: string,
 *   refused?: Refused|null, note?: string, isAsked?: boolean}} Editing
 */

/** @param {string} id @returns {any} */
export const $ = id => document.getElementById(id);
export const root = document.documentElement;

/**
 * `items` are the lines of the list, of which each has a kind `t` and an `id`; `tops` is where they begin, and `nodes`
 * are the elements of those that are drawn. `cell` is the processor at the cursor in the selected line, or -1.
 */
export const view = {
  /** @type {import("./model.js").Program} (null until the first news: what is done before then asks for it) */
  program: /** @type {any} */ (null),
  /** @type {any} a `Served` or an `Embedded`: who asks which of them it is asks `isRecord` */
  link: null,
  /** @type {Item[]} */
  items: [],
  tops: new Float64Array(1),
  /** @type {Map<any, number>} */
  place: new Map(),
  /** @type {Map<any, any>} */
  nodes: new Map(),
  selected: 0,
  cell: -1,
  /** @type {Editing|null} */
  editing: null,
  /** @type {Set<any>} */
  lit: new Set(),
  filter: "",
  base: "unsigned",
  density: "auto",
  isGrid: false,
  showsRest: false,
  isPrinting: false,
  isNarrow: false,
  isRecord: false,
  isLost: false,
  size: 13,
  ch: 8,
  lh: 22,
  room: 600,
};

const ODD = /(?!\n)[\p{Cc}\u200b-\u200f\u2028-\u202e\u2066-\u2069]/gu;
/** @type {Object<string, string>} */
const MARKS = { "&": "&amp;", "<": "&lt;", ">": "&gt;", '"': "&quot;" };

/**
 * Text as HTML. Signs that nobody sees, or that turn others around, are spelled.
 * @param {any} text
 */
export function safe(text) {
  const shown = String(text).replace(ODD, sign => `\\u${sign.charCodeAt(0).toString(16).padStart(4, "0")}`);
  return shown.replace(/[&<>"]/g, sign => MARKS[sign]);
}
/**
 * Text whose words between backticks are words of a script.
 * @param {any} text
 */
export const code = text => safe(text).replace(/`([^`]*)`/g, "<code>$1</code>");

export const store = {
  /** @param {string} key */
  get: key => { try { return localStorage.getItem(`pevudlo-${key}`); } catch { return null; } },
  /** @param {string} key @param {string} value */
  set: (key, value) => {
    try { localStorage.setItem(`pevudlo-${key}`, value); } catch { /* it is for this time alone */ }
  },
};

export const isDark = () => root.dataset.theme === "dark";
/** @type {Map<string, string>} */
const colours = new Map();
/**
 * The colour that a name has in the present theme.
 * @param {string} name @returns {string}
 */
export function css(name) {
  const key = `${root.dataset.theme} ${name}`;
  let colour = colours.get(key);
  if (colour === undefined) colours.set(key, colour = getComputedStyle(root).getPropertyValue(name).trim());
  return colour;
}
/** The colour of what the last edit changed, on a surface. */
export const fresh = () => isDark() ? css("--new") : "#e8a800";

/**
 * The element of a line of the list.
 * @param {any} id
 */
export const nodeId = id => `r-${String(id).replace(/\W/g, "_")}`;
/**
 * Whether a line has a value.
 * @param {Item|undefined} item @returns {item is ValueItem}
 */
export const isValue = item => item !== undefined && (item.t === "row" || item.t === "in" || item.t === "look");
/**
 * The key whose value stands in a line.
 * @param {ValueItem} item
 */
export const keyOf = item => item.t === "row" ? view.program.mainKey(item.text) : item.key;
/**
 * The row of a line, 0 for input data, and less for a look, whose value is its own.
 * @param {ValueItem} item
 */
export const rowOf = item => item.t === "row" ? item.id : item.t === "look" ? item.row : 0;
/**
 * Where the row of a line stands in the program, -1 for input data.
 * @param {Item} item
 */
export const placeOf = item => item.t === "row" ? view.program.at.get(item.id) ?? -1 : -1;

const later = { frame: 0, render: () => {} };
/** Has the page drawn in the next frame. */
export function draw() {
  later.frame ||= requestAnimationFrame(() => { later.frame = 0; later.render(); });
}
/** Has the page drawn at once, so that the next frame shows it. */
export function drawNow() {
  cancelAnimationFrame(later.frame);
  later.frame = 0;
  later.render();
}
/** @param {() => void} render what draws the page */
export function drawsBy(render) { later.render = render; }

let said = "";
/** @type {ReturnType<typeof setTimeout>|undefined} */
let timer;
/**
 * Says something for some seconds where the last edit is told.
 * @param {string} text
 */
export function say(text, isBad = false) {
  said = text;
  const place = $("said");
  place.textContent = text;
  place.className = isBad ? "bad" : "";
  place.sig = "";
  clearTimeout(timer);
  if (text) timer = setTimeout(() => { said = ""; draw(); }, 8000);
}
export const isSaying = () => said !== "";

/**
 * Fills an element where it is to have other HTML.
 * @param {any} element @param {string} html
 */
export function fill(element, html) {
  if (element.sig === html) return false;
  element.sig = html;
  element.innerHTML = html;
  return true;
}
