// The list: its lines and where they stand. Heights are arithmetic: nothing is measured from the document but a letter.
import { digitsOf, grouped, shape } from "./draw.js";
import { $, draw, keyOf, root, view } from "./view.js";

const WIDE = 1000, NARROW = 720, MOST_LETTERS = 52, LEAST_LETTERS = 26, MOST_MAPPED = 1024, MOST_GRIDS = 120;
/** @typedef {import("./view.js").Item} Item */
/**
 * How the values of a key stand in a line: as `shape` has them, or as a small map.
 * @typedef {ReturnType<typeof shape> & {isGrid?: boolean, isMap?: boolean, pixels: number, across: number}} Form
 */
/** @type {Map<string, Form>} */
const shapes = new Map();
let widest = { text: /** @type {Map<number, string>|null} */ (null), size: -1, most: LEAST_LETTERS };
/** @type {{id: any, off: number}|null} the first line in view, which stays where it is when something above it grows */
let anchor = null;

/** @type {Object<string, (id: number) => boolean>} */
const rowTests = {
  ":refused": id => view.program.faults.has(id),
  ":unsettled": id => view.program.unsettled.has(id),
  ":changed": id => view.program.changedRows.has(id),
};

/**
 * Whether a row is one that a word of the filter looks for.
 * @param {number} id @param {string} word
 */
function isFound(id, word) {
  const text = view.program.text.get(id) ?? "", [what, key] = word.split(":");
  if (rowTests[word]) return rowTests[word](id);
  if ((what === "writes" || what === "reads") && key) return view.program.work(text)[what].includes(key);
  return text.toLowerCase().includes(word.toLowerCase()) || word === String(id);
}

/** Makes the lines of the list anew. */
export function build() {
  const { program } = view, words = view.filter.split(/\s+/).filter(Boolean);
  const found = words.length ? [] : beginning(), notes = words.length ? new Map() : notesByPlace();
  for (const id of program.ids) {
    if (!words.every(word => isFound(id, word))) continue;
    if (!words.length) found.push(...commentsOf(id));
    found.push({ t: "row", id, text: program.text.get(id) ?? "" }, ...(notes.get(id) || []));
  }
  found.push(...(notes.get(-1) || []));
  const { editing } = view;
  if (editing?.kind === "insert") {
    const at = found.findIndex(item => item.t === "row" && item.id === editing.after);
    const place = at >= 0 ? at + 1 : editing.after === 0 ? found.findIndex(item => item.id === "h2") + 1 : found.length;
    found.splice(place, 0, { t: "new", id: "new" });
  }
  view.items = found;
  view.place = new Map(found.map((item, i) => [item.id, i]));
  lay();
}

/** @param {string} id @param {string} text @returns {Item} */
const noteLine = (id, text) => ({ t: "note", id, text });
/** @param {number} id @returns {Item[]} */
function commentsOf(id) {
  const texts = /** @type {string[]} */ (view.program.script.comments[id] || []);
  return texts.map((text, i) => noteLine(`comment ${id} ${i}`, text));
}

/** The lines of a script that stand between its rows, by the row that they stand behind. */
function notesByPlace() {
  const { program } = view, found = new Map();
  for (const note of program.script.notes) {
    const place = program.at.has(note.after) || note.after === 0 ? note.after : -1;
    found.set(place, [...(found.get(place) || []), noteItem(note)]);
  }
  return found;
}

/** @param {any} note @returns {Item} */
function noteItem(note) {
  const id = `line ${note.number}`;
  const { kind, number, key, place } = note;
  if (kind === "look") return { t: "look", id, row: -number, ...note, text: `show ${key} ${place}` };
  if (note.kind === "wrong") return { t: "wrong", id, ...note };
  return noteLine(id, note.text);
}

/** The lines above the rows: input data, and the fields that begin with 0. */
function beginning() {
  const { program } = view, given = new Set(program.given), found = /** @type {Item[]} */ ([]);
  const rest = [...program.fields.keys()].filter(key => !given.has(key));
  const { intro, left } = program.script;
  intro.forEach((/** @type {string} */ text, /** @type {number} */ i) => found.push(noteLine(`intro ${i}`, text)));
  if (left) found.push(noteLine("left", left));
  if (!program.sets.size) {
    const text = view.isRecord ? "Nothing is declared" : "A new program";
    found.push({ t: "head", id: "h0", text, more: view.isRecord ? "" : HINT });
    return [...found, ...(notesByPlace().get(0) || [])];
  }
  found.push({ t: "head", id: "h1", text: "Input data", more: given.size ? "" : "none: every field begins with 0" });
  for (const key of given) found.push({ t: "in", id: `in ${key}`, key });
  if (view.showsRest) for (const key of rest) found.push({ t: "in", id: `in ${key}`, key });
  if (rest.length && !view.showsRest) {
    found.push({ t: "rest", id: "rest", text: restWords(rest), more: view.isRecord ? "" : "Enter shows them" });
  }
  found.push(...(notesByPlace().get(0) || []));
  const none = view.isRecord ? "none" : "none: o begins one";
  found.push({ t: "head", id: "h2", text: "Rows", more: program.ids.length ? grouped(program.ids.length) : none });
  return found;
}
const HINT = "it begins with commands: press : and type set S 4, then field a S 8";
/** @param {string[]} keys */
function restWords(keys) {
  if (keys.length > 14) return `${keys.length} fields begin with 0`;
  return `${keys.join(", ")} ${keys.length > 1 ? "begin" : "begins"} with 0`;
}

/**
 * How the values of a key stand in a line.
 * @param {string} key @returns {Form}
 */
export function form(key) {
  const { program, base, room, isGrid, isNarrow, ch } = view, seen = program.digits.get(program.columns(key)) || 0;
  const name = `${key} ${seen} ${base} ${room} ${isGrid} ${program.era} ${program.processors(key)}`;
  let found = shapes.get(name);
  if (found) return found;
  const width = program.width(key), axes = program.axes(key), count = program.processors(key);
  const digits = digitsOf(width, base, seen);
  found = { ...shape(count, axes, width, digits, room, ch, isNarrow ? 8 : 2), pixels: 0, across: 0 };
  if (isGrid && axes.length > 1 && count <= MOST_MAPPED && axes[0] * found.cell <= room) {
    found = { ...found, isStrip: false, isGrid: true, per: axes[0], lines: count / axes[0] };
  } else if (isFlat(axes, count) && (found.isStrip || found.lines > 1 || width === 1)) {
    found = mapped(found, axes, count);
  }
  if (shapes.size > 400) shapes.clear();
  shapes.set(name, found);
  return found;
}
/** @param {number[]} axes @param {number} count */
const isFlat = (axes, count) => axes.length > 1 && axes[0] <= 64 && count / axes[0] <= 64 && count <= MOST_MAPPED;

/**
 * A small map of a set of two axes: some pixels a cell, as high as a line and a half.
 * @param {Form} found @param {number[]} axes @param {number} count @returns {Form}
 */
function mapped(found, axes, count) {
  const { lh } = view, down = count / axes[0], pixels = Math.max(2, Math.floor((lh * 1.5 - 1) / down));
  const lines = Math.max(1.5, Math.ceil((pixels * down + 1) / lh * 2) / 2);
  return { ...found, isStrip: true, isMap: true, pixels, across: axes[0], lines };
}

/**
 * How many lines of the list an item takes.
 * @param {Item} item
 */
function linesOf(item) {
  const { editing, isNarrow } = view;
  if (editing && editing.id === item.id) {
    const { refused, note } = editing;
    return refused || note ? Math.max(4.6, toldLines(refused ?? { hint: "", text: note ?? "" })) : 2;
  }
  if (item.t === "note") return textLines(item.text, $("list").clientWidth - (isNarrow ? 20 : 10 * view.ch), LETTER);
  if (item.t === "wrong") return Math.max(3.8, toldLines(item.refused));
  if (item.t !== "in" && item.t !== "row" && item.t !== "look") return 1;
  const key = keyOf(item);
  return (key ? form(key).lines : 1) + (isNarrow ? 1 : 0);
}

/**
 * How many lines a text takes, about: its letters are so wide, as parts of one of the program.
 * @param {string} text @param {number} wide @param {number} letter
 */
const textLines = (text, wide, letter) => Math.max(1, Math.ceil(text.length * view.ch * letter / Math.max(100, wide)));
const LETTER = 0.86, BOLD_LETTER = 0.94;

/**
 * How many lines a line of the program takes that is refused: itself, its caret, the hint and the fault's text.
 * @param {{hint: string, text: string}} refused
 */
function toldLines({ hint, text }) {
  const wide = $("list").clientWidth - 10 * view.ch, bold = textLines(hint || text, wide, BOLD_LETTER);
  return 1.9 + bold + (hint ? textLines(text, wide, LETTER) : 0);
}

/** Sets the widths of the columns by the window, the longest instruction, and what the values need. */
function measure() {
  const { program } = view, list = $("list"), probe = $("probe");
  view.ch = probe.getBoundingClientRect().width / probe.textContent.length || 8;
  view.lh = parseFloat(getComputedStyle(root).getPropertyValue("--lh"));
  view.isNarrow = innerWidth <= NARROW;
  const wide = list.clientWidth, letters = Math.floor(wide / view.ch);
  const names = [...program.fields.keys(), ...[...program.sets.keys()].map(name => `${name}.overflow`)];
  const keys = Math.max(5, ...names.map(name => Math.min(11, name.length + 1)));
  const room = letters - wanted(wide) - keys - 10;
  const most = Math.max(LEAST_LETTERS, Math.floor(letters * 0.24), room);
  const instruction = Math.max(LEAST_LETTERS, Math.min(longest(), MOST_LETTERS, most));
  root.style.setProperty("--instr", `${instruction}ch`);
  root.style.setProperty("--keyw", `${keys}ch`);
  view.room = view.isNarrow ? wide - 8.7 * view.ch : wide - (8.6 + instruction + keys) * view.ch - 16;
}

/** The letters of the longest instruction. */
function longest() {
  const { text } = view.program;
  if (widest.text !== text || widest.size !== text.size) {
    widest = { text, size: text.size, most: LEAST_LETTERS };
    for (const each of text.values()) widest.most = Math.max(widest.most, each.length + 2);
  }
  return widest.most;
}

/**
 * How many letters the values would have where they have room.
 * @param {number} wide pixels
 */
function wanted(wide) {
  const { program, base, ch } = view;
  let most = 0;
  for (const [name, { width }] of program.fields) {
    const axes = program.axes(name), count = program.processors(name), across = axes.length > 1 ? axes[0] : count;
    const digits = digitsOf(width, base, program.digits.get(program.columns(name)) || 0);
    const need = across * (width === 1 ? 1.4 : digits + 1) + across / 8 + 9;
    if (need < wide / ch * 0.7) most = Math.max(most, need, 36);
    else if (count > 64) most = Math.max(most, Math.min(78, wide / ch * 0.62));
  }
  return Math.ceil(most);
}

/** Finds where the lines stand. */
export function lay() {
  const { items } = view, list = $("list");
  measure();
  const total = () => items.reduce((sum, item) => sum + linesOf(item) * view.lh, 0);
  view.isGrid = view.density === "grids";
  if (view.density === "auto" && items.length < MOST_GRIDS) {
    view.isGrid = true;
    view.isGrid = total() <= list.clientHeight + 2;
  }
  const tops = new Float64Array(items.length + 1);
  items.forEach((item, i) => { tops[i + 1] = tops[i] + linesOf(item) * view.lh; });
  view.tops = tops;
  const below = innerWidth <= WIDE ? innerHeight * 0.46 : view.lh * 2;
  $("space").style.height = `${tops[items.length] + below}px`;
  const now = anchor && view.place.get(anchor.id);
  if (anchor && now !== undefined && now !== null && list.scrollTop > 0) list.scrollTop = tops[now] + anchor.off;
  list.setAttribute("aria-rowcount", String(items.length));
  draw();
}

/**
 * The line at a height.
 * @param {number} y
 */
export function indexAt(y) {
  const { tops, items } = view;
  let low = 0, high = items.length;
  while (low < high) {
    const middle = (low + high) >> 1;
    if (tops[middle + 1] <= y) low = middle + 1; else high = middle;
  }
  return low;
}

/**
 * The lines that are drawn, from one on and up to another: those in view, and a few above and below. `scrolled` is how
 * far the list is scrolled.
 * @returns {{from: number, to: number, scrolled: number}}
 */
export function inView() {
  const { items, lh } = view, list = $("list"), scrolled = list.scrollTop;
  if (view.isPrinting) return { from: 0, to: Math.min(items.length, 2000), scrolled };
  const last = indexAt(scrolled + list.clientHeight + lh * 3);
  return { from: indexAt(scrolled - lh * 3), to: Math.min(items.length, last + 1), scrolled };
}

/**
 * Remembers the first line in view.
 * @param {number} scrolled how far the list is scrolled
 */
export function hold(scrolled) {
  const top = indexAt(scrolled), item = view.items[top];
  anchor = item ? { id: item.id, off: scrolled - view.tops[top] } : null;
}

/** Scrolls to the selected line. */
export function reveal() {
  const { tops, selected, lh } = view, list = $("list"), y = tops[selected] ?? 0, tall = (tops[selected + 1] ?? 0) - y;
  // (the panel of a narrow window stands over the lower part of the list)
  const shown = document.body.classList.contains("sheet") ? list.clientHeight - innerHeight * 0.46 : list.clientHeight;
  if (y < list.scrollTop + lh) list.scrollTop = Math.max(0, y - lh * 2);
  else if (y + tall > list.scrollTop + shown - lh) list.scrollTop = y + tall - shown + lh * 2;
  hold(list.scrollTop);
}

/**
 * Whether a line of the list is as high as before, where its text is another.
 * @param {number} place
 */
export function isSameHeight(place) {
  const { tops, items, lh } = view;
  return Math.abs(tops[place + 1] - tops[place] - linesOf(items[place]) * lh) < 0.01;
}
