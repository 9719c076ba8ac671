// Draws the lines of the list that are in view. An unsettled row has no number.
import {
  cells, digitsOf, grouped, paint, paintChanged, paintStrip, shadesOf, short, spelled, stripOf,
} from "./draw.js";
import { paintEdit, refusedHtml } from "./edit.js";
import { form, hold } from "./list.js";
import { contextOf, have } from "./values.js";
import { $, code, css, fresh, isDark, isValue, keyOf, nodeId, placeOf, root, rowOf, safe, view } from "./view.js";

/** @typedef {import("./model.js").Value} Value */
/** @typedef {import("./view.js").Item} Item */
/** @typedef {import("./view.js").ValueItem} ValueItem */
/** @typedef {import("./list.js").Form} Form */
/** @typedef {ReturnType<typeof seenOf>} Seen */

/** @type {Object<string, string>} */
const CAUSES = {
  collision: "two messages meet at processor",
  "bad-address": "an address outside its set at processor",
};
/** @type {Object<string, string>} */
const LETTERS = { S: "set", L: "len", M: "len", X: "len", C: "len", K: "len" };
const ONES = 225;

/**
 * Why a row is refused for its data.
 * @param {[number, string, number, string]} fault
 */
export const faultWords = ([, cause, processor, words]) => words || `${CAUSES[cause] || cause} ${processor}`;

/**
 * Draws what is in view. Gives the lines that are drawn.
 * @param {{from: number, to: number, scrolled: number}} shown
 */
export function drawRows({ from, to, scrolled }) {
  const { items, tops, nodes } = view, seen = new Set();
  for (let i = from; i < to; i++) {
    const item = items[i];
    seen.add(item.id);
    const node = nodes.get(item.id) || newNode(item);
    if (node.top !== tops[i] || node.end !== tops[i + 1]) {
      node.top = tops[i];
      node.end = tops[i + 1];
      node.style.top = `${tops[i]}px`;
      node.style.height = `${tops[i + 1] - tops[i]}px`;
    }
    paintRow(node, item, i);
    // (on paper lines stand as they follow each other in the document)
    if (view.isPrinting) $("space").append(node);
  }
  for (const [id, node] of nodes) if (!seen.has(id)) { node.remove(); nodes.delete(id); }
  hold(scrolled);
  ruler();
  const item = items[view.selected];
  $("list").setAttribute("aria-activedescendant", item ? nodeId(item.id) : "");
  return items.slice(from, to);
}

/** @param {Item} item */
function newNode(item) {
  const node = /** @type {any} */ (document.createElement("div"));
  node.setAttribute("role", "row");
  node.id = nodeId(item.id);
  node.item = item.id;
  view.nodes.set(item.id, node);
  $("space").append(node);
  return node;
}

/** Has all lines drawn anew. */
export function forgetDrawn() { for (const node of view.nodes.values()) node.sig = ""; $("ruler").sig = ""; }

/** The numbers of the processors, above the columns of the selected row. */
function ruler() {
  const { program, items, selected } = view, item = items[selected], node = $("ruler");
  const key = isValue(item) ? keyOf(item) : null, shown = key ? form(key) : null;
  const sig = `${key} ${shown && JSON.stringify(shown)} ${view.base}`;
  if (node.sig === sig) return;
  node.sig = sig;
  node.style.setProperty("--d", String(shown?.digits ?? 3));
  let html = "";
  if (key && shown && !shown.isStrip && !shown.isGrid && shown.lines === 1) html = rulerCells(key, shown);
  else if (key) {
    const axes = program.axes(key);
    const line = `processors 0 to ${grouped(program.processors(key) - 1)}`;
    html = `<span>${axes.length > 1 ? `axes ${axes.join(" × ")}` : line}</span>`;
  }
  node.innerHTML = `<span class="no">row</span><span></span><span class="instr">instruction</span>` +
    `<span class="key">writes</span><span class="vals">${html}</span>`;
}

/** @param {string} key @param {Form} shown */
function rulerCells(key, shown) {
  const { program } = view, axes = program.axes(key), isBit = program.width(key) === 1, out = [];
  for (let i = 0; i < program.processors(key); i++) {
    if (i && i % shown.group === 0) out.push('<i class="gap"></i>');
    const number = axes.length > 1 ? i % axes[0] : i;
    out.push(`<b class="${isBit ? "b0" : "v"}">${isBit && i % shown.group ? "" : number}</b>`);
  }
  return out.join("");
}

/**
 * An instruction, its words by what they are.
 * @param {string} text
 */
export function instruction(text) {
  const [name, ...words] = text.split(" "), kind = view.program.table.get(name);
  const spans = words.map((word, i) => ` <span class="${LETTERS[kind?.operands[i] ?? ""] || "arg"}">${safe(word)}</span>`);
  return `<span class="op">${safe(name)}</span>${spans.join("")}`;
}

/**
 * What stands in a line: its state, its value, and all that its drawing depends on.
 * @param {ValueItem} item @param {number} i
 */
function seenOf(item, i) {
  const { program, selected } = view, isRow = item.t === "row", key = keyOf(item), row = rowOf(item);
  const isOpen = !program.isSettled(row) || Boolean(item.pending), work = item.t === "row" ? program.work(item.text) : null;
  const context = item.t === "row" && key !== work?.context ? contextOf(item) : null;
  const others = work && !isOpen ? work.writes.filter(each => each !== key) : [];
  const flags = /** @type {[string, Value|null][]} */ (others.map(each => [each, have(each, row, false)]));
  return {
    isRow, key, row, isOpen, flags, isSelected: i === selected, shown: key ? form(key) : null,
    fault: isRow && !isOpen ? program.faults.get(row) : null,
    value: key && !isOpen ? have(key, row, false) : null,
    off: context ? have(context[0], context[1], true) : null,
    before: isRow && key ? have(key, program.writer(key, placeOf(item) - 1), true) : null,
    isLit: view.lit.has(isRow ? row : item.id),
  };
}

/** @param {any} node @param {Item} item @param {number} i */
function paintRow(node, item, i) {
  if (view.editing && view.editing.id === item.id) { paintEdit(node, item); return; }
  if (item.t === "wrong") { paintWrong(node, item); return; }
  if (!isValue(item)) { paintHead(node, item, i); return; }
  const seen = seenOf(item, i), { isRow, isOpen, fault, value, flags, shown, isSelected } = seen;
  const isChanged = !isOpen && Boolean(value?.changed || flags.some(([, flag]) => flag?.changed));
  const sig = [
    item.id, item.text, isOpen ? waits(item) : "", fault, value?.id, value?.changed?.size,
    seen.off?.id, seen.before?.id, isSelected,
    flags.map(([, flag]) => `${flag?.id} ${flag?.changed?.size}`), isSelected ? view.cell : -1, view.base, seen.isLit,
    shown && JSON.stringify(shown), root.dataset.theme, view.ch,
  ].join("|");
  if (node.sig === sig) return;
  node.sig = sig;
  const state = isOpen ? "open" : fault ? "bad" : isChanged ? "changed" : "";
  node.className = ["row", isRow ? "" : item.t, state, isSelected ? "sel" : seen.isLit ? "made" : ""].join(" ");
  node.setAttribute("aria-rowindex", String(i + 1));
  node.setAttribute("aria-selected", String(isSelected));
  node.style.setProperty("--d", String(shown?.digits ?? 3));
  node.innerHTML = rowHtml(item, seen, state);
  if (value) paintCanvas(node, value, seen);
  if (isSelected && view.cell >= 0) node.querySelector(`[data-i="${view.cell}"]`)?.classList.add("cur");
}

/**
 * A line of the script that was refused: its caret and the reason stand below it.
 * @param {any} node @param {import("./view.js").WrongItem} item
 */
function paintWrong(node, item) {
  if (node.sig === item.id) return;
  node.sig = item.id;
  node.className = "row bad wrong";
  const { refused, number, text } = item;
  const mark = refused.at === null ? "" : `<span class="mark">${" ".repeat(refused.at)}▲</span>`;
  node.innerHTML = `<span class="no">${number}</span><span class="st">✕</span><span class="edit">` +
    `<span class="line">${safe(text)}</span>${mark}<span class="told">${refusedHtml(refused)}</span></span>`;
}

const isSign = (/** @type {string} */ word) => word.length === 1;

/** @param {any} node @param {any} item @param {number} i */
function paintHead(node, item, i) {
  const sig = `${item.text} ${item.more} ${i === view.selected}`;
  if (node.sig === sig) return;
  node.sig = sig;
  // (lines of single signs are a drawing, and stay under each other)
  const isDrawing = item.t === "note" && item.text.length > 1 && item.text.split(" ").every(isSign);
  node.className = `row ${item.t}${isDrawing ? " drawing" : ""}${i === view.selected ? " sel" : ""}`;
  node.innerHTML = `<span></span><span></span><span class="instr" role="rowheader">${code(item.text ?? "")} ` +
    `<small>${code(item.more ?? "")}</small></span>`;
}

/** @type {Object<string, [string, string]>} */
const STATES = {
  open: ["○", "unsettled"], bad: ["✕", "refused for its data"], changed: ["", "changed by the last edit"],
  "": ["", "settled"],
};

/** @param {any} item @param {Seen} seen @param {string} state */
function rowHtml(item, seen, state) {
  const { program } = view, { isRow, key, row } = seen, [sign, word] = STATES[state];
  const title = isRow && item.text.length > 30 ? `title="${safe(item.text)}"` : "";
  const size = isRow ? "" : `${program.axes(item.key).join("×")} × ${program.width(item.key)} bit`;
  const input = `<span class="op">${safe(item.key)}</span> <span class="len">${size}</span>`;
  const text = item.text === undefined ? input : instruction(item.text);
  return `<span class="no" role="rowheader">${isRow ? row : item.number ?? ""}</span>` +
    `<span class="st" role="gridcell" aria-label="${word}">${sign}</span>` +
    `<span class="instr" role="gridcell" ${title}>${text}</span>` +
    `<span class="key" role="gridcell">${item.t === "in" ? "" : safe(key ?? "")}</span>` +
    `<span class="vals" role="gridcell">${valuesHtml(item, seen)}</span>`;
}

/**
 * The values of a line: numbers, a map or a strip, and flags. None where it is unsettled, or refused for its data.
 * @param {ValueItem} item @param {Seen} seen
 */
function valuesHtml(item, { key, isOpen, fault, value, flags, shown, off, before }) {
  if (isOpen) return `<i class="pend">${safe(waits(item))}</i>`;
  if (fault) return `<span class="why">${code(faultWords(fault))}</span>`;
  let html = view.isRecord && !value && key ? '<span class="ends">not drawn</span>' : "";
  if (value && shown && (value.isStrip || shown.isStrip)) html = stripHtml(value, key, shown);
  else if (value) {
    const marks = { off: off?.numbers, before: before?.numbers };
    html = cells(value, { width: view.program.width(key), base: view.base, form: shown, ...marks });
  }
  return html + flags.map(([flag, its]) => flagHtml(flag, its)).join("");
}

/**
 * In how many processors a value of one bit is 1.
 * @param {Value} value @returns {number}
 */
export const onesOf = value => {
  if (value.isStrip) return value.ones ?? 0;
  return value.numbers.reduce((/** @type {number} */ sum, /** @type {number} */ bit) => sum + bit, 0);
};

/**
 * A flag beside the value: nothing where it is 0 everywhere, as before.
 * @param {string} key @param {Value|null} value
 */
function flagHtml(key, value) {
  const ones = value ? onesOf(value) : 0;
  if (!value || (!ones && !value.changed)) return "";
  const name = (key.split(".")[1] ?? key).replace("overflow", "ovf");
  const title = `${key} is 1 in ${grouped(ones)} processors`;
  const kind = value.changed ? "chip new" : "chip";
  return `<span class="${kind}" title="${safe(title)}">${safe(name)} ${grouped(ones)}</span>`;
}

/** @param {Value} value @param {string} key @param {Form} shown */
function stripHtml(value, key, shown) {
  const { program, base, ch, room } = view, width = program.width(key), strip = stripOf(value), { all } = strip;
  const count = (value.isStrip ? value.count : value.changed?.size) ?? 0;
  const isShort = digitsOf(width, base, 0) <= 2 && spelled(strip.high, width, base).length === 1;
  // Beside a map stand its numbers, each of one digit, where they fit in the line.
  if (shown.isMap && isShort && shown.pixels * shown.across + (all + 0.5 * all / shown.across + 1.5) * ch <= room) {
    const tight = { per: all, group: shown.across };
    return `<canvas class="map"></canvas><span class="tight">${cells(value, { width, base, form: tight })}</span>`;
  }
  const ends = width === 1 ? `${grouped(onesOf(value))} of ${grouped(all)}`
    : `${short(spelled(strip.low, width, base))}<i> … </i>${short(spelled(strip.high, width, base))}`;
  const many = count < 0 ? "" : `${count === all ? "all" : grouped(count)} `;
  const chip = count ? `<span class="chip new">${many}changed</span>` : "";
  return `<canvas class="${shown.isMap ? "map" : "strip"}"></canvas><span class="ends">${ends}</span>${chip}`;
}

/** The colours of strips in the present theme. */
export const tints = () => ({ band: css("--band"), mean: css("--mean"), fresh: fresh() });

/** @param {any} node @param {Value} value @param {Seen} seen */
function paintCanvas(node, value, { key, shown }) {
  const canvas = node.querySelector("canvas");
  if (!canvas || !shown) return;
  if (!shown.isMap) {
    paintStrip(canvas, stripOf(value), view.lh - 5, tints());
    canvas.style.width = `${Math.max(80, Math.min(620, view.room - 51 * view.ch))}px`;
    return;
  }
  const isBit = view.program.width(key) === 1, { numbers } = value;
  const shades = isBit ? numbers.map((/** @type {number} */ bit) => bit * ONES) : shadesOf(numbers).shades;
  paint(canvas, shades, shown.across, isDark());
  if (value.changed) paintChanged(canvas, value.changed, css("--new"));
  canvas.style.width = `${shown.pixels * canvas.width}px`;
  canvas.style.height = `${shown.pixels * canvas.height}px`;
}

/**
 * Why a row is unsettled.
 * @param {ValueItem} item
 */
export function waits(item) {
  if (item.pending) return `pending: row ${item.pending} has to run`;
  const { program } = view, { reads, context, writes } = program.work(item.text ?? ""), before = placeOf(item) - 1;
  for (const key of [...reads, context, ...writes]) {
    const row = key && program.writer(key, before);
    if (row && program.unsettled.has(row)) return `waits for row ${row}`;
  }
  return view.isRecord ? "not run" : program.state.on ? "runs next" : "stopped";
}

/**
 * The row of the list that an element stands in.
 * @param {any} element
 */
export function itemAt(element) {
  const line = element.closest?.("#space > .row");
  return line ? view.items[view.place.get(line.item) ?? -1] : undefined;
}
