// The panel of the selected row: its result, its operands with the rows that wrote them, context and flags.
import { coordinates, grouped, paint, paintChanged, paintStrip, shadesOf, spelled } from "./draw.js";
import { faultWords, tints, waits } from "./rows.js";
import { contextOf, have } from "./values.js";
import { $, code, css, draw, fresh, isDark, isValue, keyOf, placeOf, root, rowOf, safe, view } from "./view.js";

const WIDE = 1000, MOST_CELLS = 256;
const ACTS = '<button data-act="edit">Edit</button><button data-act="new">New row below</button>' +
  '<button data-act="delete">Delete</button>';
/** @typedef {import("./model.js").Value} Value */
/** @typedef {import("./view.js").ValueItem} ValueItem */
let sig = "", reason = { row: 0, version: -1, text: "" };

export const isPanelOpen = () => {
  const { classList } = document.body;
  return innerWidth > WIDE ? !classList.contains("no-inspect") : classList.contains("sheet");
};
/** Has the panel drawn anew. */
export function forgetPanel() { sig = ""; }

/** Opens the panel, or closes it. */
export function togglePanel() {
  document.body.classList.toggle(innerWidth > WIDE ? "no-inspect" : "sheet");
  forgetPanel();
}

/** Draws the panel where something in it is other. */
export function drawPanel() {
  const item = view.items[view.selected], panel = $("inspect");
  if (!isPanelOpen() || !isValue(item)) {
    if (sig && item?.t !== "new") { panel.innerHTML = ""; sig = ""; }
    return;
  }
  const parts = partsOf(item), { program } = view;
  const now = [
    item.id, item.text, program.isSettled(rowOf(item)), view.base, root.dataset.theme, panel.clientWidth,
    program.faults.get(rowOf(item)), reason.text, program.isSettled(rowOf(item)) ? "" : waits(item),
    parts.map(([key, row]) => {
      const value = shownOf(key, row);
      return [key, row, program.isSettled(row), value?.id, value?.changed?.size];
    }),
  ].join("|");
  if (now !== sig) {
    sig = now;
    panel.innerHTML = headHtml(item) + parts.map(part => partHtml(...part)).join("");
    for (const grid of panel.querySelectorAll(".grid")) grid.style.setProperty("--d", grid.dataset.digits);
    for (const canvas of panel.querySelectorAll("canvas.pic")) paintPicture(canvas);
  }
  markCell();
  askReason(item);
}

/**
 * What stands in the panel: of each part its key, the row that wrote it, words, and whether it is the row's own.
 * @param {ValueItem} item @returns {[string, number, string, boolean][]}
 */
function partsOf(item) {
  const { program } = view, row = rowOf(item), key = keyOf(item), before = placeOf(item) - 1;
  if (item.t === "in") return [[key, 0, "at the start", true]];
  if (item.t === "look") return item.pending ? [] : [[key, row, "as the script shows it", true]];
  const work = program.work(item.text), context = contextOf(item);
  const parts = /** @type {[string, number, string, boolean][]} */ (key ? [[key, row, "after this row", true]] : []);
  const reads = new Set([...work.reads, ...(context ? [context[0]] : [])]);
  for (const each of reads) parts.push([each, program.writer(each, before), "read by this row", false]);
  for (const each of work.writes) if (each !== key) parts.push([each, row, "written too", true]);
  return parts;
}

/** @param {string} key @param {number} row */
const shownOf = (key, row) => have(key, row, false);

/** @param {ValueItem} item */
function headHtml(item) {
  const { program } = view;
  if (item.t === "look") {
    const open = item.pending ? `<p class="open">○ ${safe(waits(item))}</p>` : "";
    return `<h2><small>line ${item.number}</small> ${safe(item.text)}</h2>${open}`;
  }
  if (item.t === "in") {
    const words = view.isRecord ? "" : "<p>Click a number to change it, or press Enter.</p>";
    return `<h2><small>input</small> ${safe(item.key)}</h2>${words}`;
  }
  const kind = program.table.get(item.text.split(" ")[0]), fault = program.faults.get(item.id);
  const spelling = kind ? [item.text.split(" ")[0], ...kind.operands].join(" ") : "";
  const acts = view.link.canEdit ? `<p class="acts">${ACTS}</p>` : "";
  let html = `<h2><small>row ${item.id}</small> ${safe(item.text)}</h2><p>${safe(spelling)}</p>${acts}`;
  const why = reason.row === item.id ? reason.text : "";
  if (!program.isSettled(item.id)) html += `<p class="open">○ unsettled: ${safe(waits(item))}${safe(why)}</p>`;
  else if (fault) html += `<p class="bad">✕ It stores nothing, since ${code(faultWords(fault))}</p>`;
  return html;
}

/**
 * Of an unsettled row the rows that it waits for, and since which edit the last one of them is unsettled.
 * @param {ValueItem} item
 */
async function askReason(item) {
  const { program, link } = view;
  if (item.t !== "row" || program.isSettled(item.id) || !link.since) {
    reason = { row: 0, version: -1, text: "" };
    return;
  }
  if (reason.row === item.id && reason.version === program.version) return;
  const { words, last } = chainOf(item.id);
  reason = { row: item.id, version: program.version, text: reason.row === item.id ? reason.text : "" };
  const line = await link.since(last), since = line ? `row ${last} is unsettled since the edit ${line}` : "";
  giveReason(item.id, [...words, since].filter(Boolean).join(", "));
}

/** @param {number} row @param {string} text */
function giveReason(row, text) {
  if (reason.row === row && text) { reason.text = `. ${text}`; draw(); }
}

/** @param {number} id */
function chainOf(id) {
  const { program } = view, words = /** @type {string[]} */ ([]);
  let last = id;
  for (let count = 0; count < 1000; count++) {
    const place = program.at.get(last) ?? 0, { reads, context, writes } = program.work(program.text.get(last) ?? "");
    const isOpen = (/** @type {string|null} */ key) => key && program.unsettled.has(program.writer(key, place - 1));
    const key = [...reads, context, ...writes].find(isOpen);
    if (!key) break;
    const row = program.writer(key, place - 1);
    if (words.length < 12) words.push(`row ${last} reads ${key} of row ${row}`);
    last = row;
  }
  return { words, last };
}

/** @param {string} key @param {number} row @param {string} words @param {boolean} isOwn */
function partHtml(key, row, words, isOwn) {
  const { program } = view, value = shownOf(key, row), axes = program.axes(key);
  const isZero = value && isOwn && key.includes(".") && (value.isStrip ? !value.ones : !value.numbers.some(Boolean));
  const name = safe(key), shape = `${axes.join("×")} · ${program.width(key)} bit`;
  const writer = row ? `row ${row}` : "input";
  if (isZero && words === "written too" && !value.changed) return `<h3><b>${name}</b><small>0 everywhere</small></h3>`;
  const go = isOwn ? "" : `<button class="go" data-go="${row}" data-key="${name}">${writer} ↗</button>`;
  const head = `<h3><b>${name}</b><small>${words} · ${shape}</small>${go}</h3>`;
  if (!program.isSettled(row)) return `${head}<p class="open">○ pending</p>`;
  return head + (value ? bodyHtml(key, row, value, axes) : "");
}

/** @param {string} key @param {number} row @param {Value} value @param {number[]} axes */
function bodyHtml(key, row, value, axes) {
  const count = value.all ?? value.numbers.length;
  const html = value.isStrip || count > MOST_CELLS ? pictureHtml : gridHtml;
  return html(key, row, value, axes, count);
}

/** @param {string} key @param {number} row @param {Value} value @param {number[]} axes @param {number} count */
function pictureHtml(key, row, value, axes, count) {
  const { program, base } = view, width = program.width(key);
  const { low, high } = value.isStrip ? value : shadesOf(value.numbers), each = grouped(Math.round(count / 256));
  const square = 1 << Math.ceil(Math.log2(Math.sqrt(count)));
  const across = value.isStrip ? 256 : axes.length > 1 ? axes[0] : square;
  const label = `${key}, ${count} numbers from ${low} to ${high}`, name = `data-key="${safe(key)}" data-row="${row}"`;
  const scale = `<div class="scale">${spelled(low, width, base)}<i></i>${spelled(high, width, base)}</div>`;
  let below = axes.length > 1 ? "" : `<p>${across} processors a line</p>`;
  if (value.isStrip) below = `<p>from least to greatest of ${each} processors each, and their mean</p>`;
  else if (value.changed) {
    const words = `${grouped(value.changed.size)} of ${grouped(count)} changed by the edit`;
    below = `<p class="mask"><canvas class="mask" ${name}></canvas> ${words}</p>`;
  }
  const more = `data-across="${across}" role="img" aria-label="${safe(label)}"`;
  return `<canvas class="pic" ${name} ${more}></canvas>${scale}${below}`;
}

/** @param {any} canvas */
function paintPicture(canvas) {
  const { key, row, across } = canvas.dataset, value = view.program.value(key, Number(row));
  if (!value) return;
  if (value.isStrip) {
    paintStrip(canvas, value, view.lh * 2, tints());
    canvas.style.height = `${view.lh * 2}px`;
    return;
  }
  paint(canvas, shadesOf(value.numbers).shades, Number(across), isDark());
  if (!value.changed) return;
  // A picture of which much has changed stays clean: a small mask beside it says where.
  if (value.changed.size * 50 < value.numbers.length) paintChanged(canvas, value.changed, css("--new"));
  const mask = canvas.parentNode.querySelector(`canvas.mask[data-key="${CSS.escape(key)}"][data-row="${row}"]`);
  if (!mask) return;
  mask.width = canvas.width;
  mask.height = canvas.height;
  paintChanged(mask, value.changed, fresh(), value.changed.size < 2000 ? Math.ceil(mask.width / 36) : 1);
}

/** @param {string} key @param {number} row @param {Value} value @param {number[]} axes @param {number} count */
function gridHtml(key, row, value, axes, count) {
  const { program, base, ch } = view, width = program.width(key);
  const texts = Array.from(value.numbers, number => spelled(number, width, base));
  const digits = Math.max(...texts.map(text => text.length)), cell = width === 1 ? 2.3 * ch : (digits + 1.2) * ch;
  const most = Math.floor(($("inspect").clientWidth - 24 - 3 * ch) / cell);
  const across = axes.length > 1 ? axes[0] : count <= 8 ? count : most >= 16 && count >= 16 ? 16 : most >= 8 ? 8 : 4;
  const heads = Array.from({ length: Math.min(across, count) }, (_, x) => `<th scope="col">${x}</th>`).join("");
  const table = `<table data-key="${safe(key)}" data-row="${row}"><tr><th></th>${heads}`;
  let html = `<div class="grid" data-digits="${digits}">${table}`;
  for (let y = 0; y * across < count; y++) {
    html += `</tr><tr><th scope="row">${axes.length > 1 ? y % axes[1] : y * across}</th>`;
    for (let i = y * across; i < Math.min(count, (y + 1) * across); i++) {
      const kind = width === 1 ? (value.numbers[i] ? "b1" : "b0") : "v";
      html += `<td><b class="${kind}${value.changed?.has(i) ? " new" : ""}" data-i="${i}">${texts[i]}</b></td>`;
    }
  }
  return `${html}</tr></table></div>`;
}

function markCell() {
  const table = $("inspect").querySelector("table");
  table?.querySelector(".cur")?.classList.remove("cur");
  if (view.cell >= 0) table?.querySelector(`[data-i="${view.cell}"]`)?.classList.add("cur");
}

/**
 * What one number is, in words: of which processor, by which row, and what it was before the edit.
 * @param {string} key @param {number} row @param {number} i @param {Value} value
 */
export function told(key, row, i, value) {
  const { program } = view, width = program.width(key), number = value.numbers[i], axes = program.axes(key);
  const at = axes.length > 1 ? ` (${coordinates(i, axes).join(", ")})` : "";
  const isNegative = width > 1 && BigInt(number) >> BigInt(width - 1) === 1n;
  const signed = isNegative ? ` · signed ${spelled(number, width, "signed")}` : "";
  const ways = width === 1 ? "" : ` · 0x${spelled(number, width, "hex")}${signed}`;
  const before = value.changed?.has(i) && value.was ? `\nbefore the edit ${value.was[i]}` : "";
  const other = row ? `shown by line ${-row}` : "input data";
  const writer = row > 0 ? `written by row ${row}: ${program.text.get(row)}` : other;
  return { head: `${key}[${i}]${at} = `, number: String(number), rest: `${ways}${before}\n${writer}` };
}
