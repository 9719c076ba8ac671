// Editing: a row in its line, a number of input data in its cell, and any command in the line below.
import { numberOf, spelled, WANTED } from "./draw.js";
import { build, lay, reveal } from "./list.js";
import { have } from "./values.js";
import { $, code, draw, drawNow, safe, say, view } from "./view.js";

/** @typedef {import("./view.js").Editing} Editing */
/** @typedef {import("./view.js").Refused} Refused */

const RECORD = "This page is a record: nothing is edited here.";
const WORDS = ["none", "upward", "downward", "inclusive", "exclusive"];
const FIELDS = "DABFGN";

/** Shows a line again: the one that a function of the keys selects. */
const after = { select: /** @type {(place: number) => void} */ (() => {}) };
/** @param {(place: number) => void} select */
export function selectsBy(select) { after.select = select; }

/**
 * Begins to edit a row, or a new one behind the row of an id (0: at the start, undefined: at the end).
 * @param {"replace"|"insert"} kind @param {any} of the line of the row, or the id
 */
export function begin(kind, of) {
  if (!view.link.canEdit) { say(RECORD); return; }
  const isNew = kind === "insert";
  view.editing = isNew ? { kind, id: "new", after: of, text: "" } : { kind, id: of.id, was: of.text, text: of.text };
  build();
  if (isNew) view.selected = view.place.get("new") ?? view.selected;
  reveal();
  draw();
  requestAnimationFrame(() => {
    const input = $("space").querySelector(".edit input");
    input?.focus();
    input?.setSelectionRange(input.value.length, input.value.length);
  });
}

/**
 * Draws the line that is edited: the field, below it a caret, why it was refused, or the instruction's spelling.
 * @param {any} node @param {import("./view.js").Item} item
 */
export function paintEdit(node, item) {
  const { editing } = view, sig = `edit ${item.id}`;
  if (!editing) return;
  if (node.sig !== sig) {
    node.sig = sig;
    node.className = "row sel";
    node.innerHTML = `<span class="no">${item.t === "row" ? item.id : "+"}</span><span class="st"></span>` +
      '<span class="edit" role="gridcell"><input aria-label="instruction" autocomplete="off" autocapitalize="off" ' +
      'spellcheck="false" maxlength="65536"><span class="mark" hidden></span>' +
      '<span class="told" role="alert" hidden></span><span class="spell"></span></span>';
    const input = node.querySelector("input");
    input.value = editing.text;
    input.oninput = () => typed(node, input.value);
    hint(node, editing.text);
  }
  const { refused, note } = editing, mark = node.querySelector(".mark"), told = node.querySelector(".told");
  const at = refused?.at ?? null;
  node.querySelector("input").setAttribute("aria-invalid", String(Boolean(refused)));
  mark.hidden = at === null;
  // The caret is text in the field's own font: no pixels are reckoned.
  mark.textContent = at === null ? "" : `${" ".repeat(Math.max(0, at))}▲`;
  told.hidden = !refused && !note;
  if (refused) told.innerHTML = refusedHtml(refused);
  else if (note) told.innerHTML = `<b>${code(note)}</b>`;
  node.querySelector(".spell").hidden = Boolean(refused || note);
}

/**
 * Why a command was refused: the hint first.
 * @param {Refused} refused
 */
export function refusedHtml(refused) {
  const head = `<b>✕ ${code(refused.hint || refused.text)}</b>`;
  return refused.hint ? `${head}<br><span class="why-so">${code(refused.text)}</span>` : head;
}

/** @param {any} node @param {string} text */
function typed(node, text) {
  const { editing } = view;
  if (!editing) return;
  editing.text = text;
  if (editing.refused) { editing.refused = null; lay(); }
  hint(node, text);
  draw();
}

/**
 * Below a line stands the spelling of its instruction, or which ones Tab completes.
 * @param {any} node @param {string} text
 */
function hint(node, text) {
  const { table } = view.program, word = text.trimStart().split(" ")[0], kind = table.get(word);
  const near = kind ? [] : [...table.keys()].filter(name => name.includes(word)).slice(0, 6);
  const place = node.querySelector(".spell");
  place.textContent = kind ? [word, ...kind.operands].join(" ") : near.length ? `${near.join("   ")}   (Tab)` : "";
}

/**
 * Completes the word at the cursor: an instruction first, then fields, sets and the words of instructions.
 * @param {any} input
 */
export function complete(input) {
  const { program } = view, start = input.value.slice(0, input.selectionStart), word = start.split(" ").pop();
  const operands = [...program.fields.keys(), ...program.sets.keys(), ...WORDS];
  const names = start.includes(" ") ? operands : [...program.table.keys()];
  const near = names.filter(name => name.startsWith(word));
  const all = near.length ? near : names.filter(name => name.includes(word));
  if (!all.length) return;
  let common = all[0];
  for (const name of all) while (!name.startsWith(common)) common = common.slice(0, -1);
  const text = all.length === 1 ? `${all[0]} ` : common.length > word.length ? common : all[0];
  input.setRangeText(text, input.selectionStart - word.length, input.selectionStart, "end");
  input.oninput?.();
}

/**
 * Where the first operand stands that isn't declared, for a refusal that has no column.
 * @param {string} text
 */
function undeclared(text) {
  const { program } = view, words = text.split(" "), kind = program.table.get(words[0]);
  let at = 0;
  for (const [i, word] of words.entries()) {
    const letter = kind?.operands[i - 1] ?? "";
    const isField = letter.length === 1 && FIELDS.includes(letter) && word !== "none" && !program.fields.has(word);
    if (isField || (letter === "S" && !program.sets.has(word))) return at;
    at += word.length + 1;
  }
  return null;
}

/** Hands over the line that is edited. One that is refused stays, with a caret and the reason below it. */
export async function commit() {
  const { editing } = view;
  if (!editing || editing.isAsked) return;
  const text = editing.text.trim();
  if ((editing.kind === "replace" && text === editing.was && !editing.note) || !text) { cancel(); return; }
  const { kind, id, after: behind } = editing;
  const place = behind === 0 ? "start" : behind ? `after ${behind}` : "end";
  const head = kind === "replace" ? `replace ${id} ` : `insert ${place} `;
  editing.isAsked = true;
  const said = await view.link.edit(head + text, kind === "replace" ? editing.was : undefined);
  editing.isAsked = false;
  if (view.editing !== editing) return;
  if (typeof said.text === "string") editing.was = said.text;
  if (said.refused) refuse(editing, said.refused, text, head);
  else end(kind === "insert" ? Number(/^row (\d+)$/.exec(said.reply?.[0] ?? "")?.[1]) : id);
}

/**
 * A line was taken: it is that of a row now.
 * @param {number|"new"} row
 */
function end(row) {
  view.editing = null;
  build();
  after.select(view.place.get(row) ?? view.selected);
  $("list").focus();
  drawNow();
}

/** @param {Editing} editing @param {Refused} refused @param {string} text @param {string} head */
function refuse(editing, refused, text, head) {
  const lead = editing.text.length - editing.text.trimStart().length, { at } = refused;
  const found = at === null ? (refused.reply ? undeclared(text) : null) : Math.max(0, at - head.length);
  editing.refused = { ...refused, at: found === null ? null : found + lead };
  lay();
}

/** Leaves a line as it was. */
export function cancel() {
  const { editing } = view;
  if (!editing) return;
  view.editing = null;
  build();
  after.select(view.place.get(editing.kind === "insert" ? editing.after : editing.id) ?? view.selected);
  $("list").focus();
}

/** Who edits a row is told where another one changes it, or takes it out. */
export function noteOthers() {
  const { editing, program } = view;
  if (!editing || editing.kind !== "replace" || editing.isAsked) return;
  const now = program.text.get(Number(editing.id));
  if (now === undefined) {
    view.editing = null;
    tellGone(`Row ${editing.id} was deleted meanwhile. What was typed: ${editing.text}`);
  } else if (now !== editing.was) {
    editing.was = now;
    editing.refused = null;
    editing.note = `This row was changed meanwhile, and is now \`${now}\`. Enter replaces it.`;
    lay();
  }
}

/** @param {string} text */
function tellGone(text) {
  $("gone").hidden = false;
  $("gone").firstElementChild.textContent = text;
}

/** Takes the selected row out. */
export async function remove() {
  const item = view.items[view.selected];
  if (item?.t !== "row") return;
  if (!view.link.canEdit) { say(RECORD); return; }
  const said = await view.link.edit(`delete ${item.id}`, item.text);
  if (said.refused) say(said.refused.hint || said.refused.text, true);
}

/**
 * Changes a number of input data. A cell of one bit turns over at once.
 * @param {import("./view.js").InputItem} item @param {number} i
 */
export async function editCell(item, i) {
  const { program, base, nodes } = view, value = have(item.key, 0, true), width = program.width(item.key);
  if (!view.link.canEdit) { say(RECORD); return; }
  if (!value) { openCommand(`input ${item.key} ${i} `); return; }
  if (width === 1) { give(`input ${item.key} ${i} ${value.numbers[i] ? 0 : 1}`); return; }
  const table = `table[data-key="${CSS.escape(item.key)}"] [data-i="${i}"]`;
  const cell = nodes.get(item.id)?.querySelector(`[data-i="${i}"]`) ?? $("inspect").querySelector(table);
  if (!cell) { openCommand(`input ${item.key} ${i} `); return; }
  openNumber(cell, { key: item.key, processor: i, width, base, text: spelled(value.numbers[i], width, base) });
}

/** @param {string} line */
async function give(line) {
  const said = await view.link.edit(line);
  if (said.refused) say(said.refused.hint || said.refused.text, true);
  return !said.refused;
}

/**
 * A field over a cell. It is given by Enter, or where one clicks elsewhere; a wrong number stays, with the reason.
 * @param {HTMLElement} cell
 * @param {{key: string, processor: number, width: number, base: string, text: string}} number
 */
function openNumber(cell, { key, processor, width, base, text }) {
  document.querySelector(".num")?.remove();
  const box = cell.getBoundingClientRect(), input = document.createElement("input");
  let isOver = false, isAsked = false;
  input.className = "num";
  input.value = text;
  input.setAttribute("aria-label", `${key}, processor ${processor}`);
  input.style.left = `${Math.max(2, Math.min(box.left - 6, innerWidth - 80))}px`;
  input.style.top = `${box.top - 2}px`;
  input.style.width = `${Math.max(box.width + 14, 9 * view.ch)}px`;
  const close = () => { isOver = true; input.remove(); };
  const isTaken = async () => {
    const number = numberOf(input.value.trim(), width, base);
    isAsked = true;
    const isGiven = number !== null && await give(`input ${key} ${processor} ${number}`);
    isAsked = false;
    if (number === null) say(WANTED[base], true);
    if (isGiven) say(""); else input.setAttribute("aria-invalid", "true");
    return isGiven;
  };
  const leave = async (/** @type {boolean} */ takesFocus) => {
    if (isOver || isAsked) return;
    if (input.value.trim() !== text && !await isTaken()) return;
    close();
    if (takesFocus) $("list").focus();
  };
  input.addEventListener("keydown", event => {
    event.stopPropagation();
    if (event.key === "Enter") leave(true);
    if (event.key === "Escape") { say(""); close(); $("list").focus(); }
  });
  input.addEventListener("blur", () => { if (document.hasFocus()) leave(false); });
  document.body.append(input);
  input.focus();
  input.select();
}

// Any command.

/** @type {string[]} */
const lines = [];
let line = 0;

/** Opens the line for commands, with a text in it. */
export function openCommand(text = "") {
  if (!view.link.canEdit) { say(RECORD); return; }
  $("commands").hidden = false;
  const input = $("line");
  if (text) input.value = text;
  input.focus();
  input.setSelectionRange(input.value.length, input.value.length);
  drawLog();
  lay();
}

export function closeCommand() {
  $("commands").hidden = true;
  $("list").focus();
  lay();
}

/** The last commands with their replies, the last one first. */
export function drawLog() {
  if ($("commands").hidden) return;
  const items = view.program.log.map(({ number, line: text, reply, refused }) => {
    const place = number ? `line ${number} ` : "";
    const answer = refused ? refusedHtml(refused) : `<span class="reply">→ ${safe(reply)}</span>`;
    return `<li${refused ? ' class="refused"' : ""}>${place}<code>${safe(text)}</code> ${answer}</li>`;
  });
  const html = items.reverse().join("");
  if ($("log").sig === html) return;
  $("log").sig = html;
  $("log").innerHTML = html;
}

/** Watches the line for commands. */
export function watchCommand() {
  const input = $("line"), told = $("refused");
  // What is typed while a command is asked for stays.
  const clear = (/** @type {string} */ text) => { if (input.value === text) input.value = ""; };
  $("command").addEventListener("submit", async (/** @type {SubmitEvent} */ event) => {
    event.preventDefault();
    const text = input.value;
    if (!text) return;
    lines.push(text);
    line = lines.length;
    const said = await view.link.edit(text);
    told.hidden = !said.refused;
    if (!said.refused) { clear(text); return; }
    const { at } = said.refused, caret = at === null ? "" : `<span class="mark">${" ".repeat(at)}▲</span>`;
    told.innerHTML = caret + refusedHtml(said.refused);
  });
  input.addEventListener("keydown", (/** @type {KeyboardEvent} */ event) => {
    event.stopPropagation();
    if (event.key === "Escape") closeCommand();
    if (event.key !== "ArrowUp" && event.key !== "ArrowDown") return;
    line = Math.max(0, Math.min(lines.length, line + (event.key === "ArrowUp" ? -1 : 1)));
    input.value = lines[line] || "";
    event.preventDefault();
  });
}
