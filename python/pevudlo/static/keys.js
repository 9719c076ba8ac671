// Keys and the pointer: what is selected, and what is done with it.
import { BASES } from "./draw.js";
import { begin, cancel, closeCommand, commit, complete, editCell, openCommand, remove, selectsBy } from "./edit.js";
import { build, lay, reveal } from "./list.js";
import { forgetPanel, told, togglePanel } from "./panel.js";
import { forgetDrawn, itemAt } from "./rows.js";
import { ensure, ensureAll, have } from "./values.js";
import { $, draw, isDark, isValue, keyOf, placeOf, root, rowOf, safe, say, store, view } from "./view.js";

const WIDE = 1000, LEAST = 11, MOST = 24;
const DENSITIES = ["auto", "lines", "grids"];
const SKIPPED = new Set(["head", "note", "wrong"]);
/** @typedef {import("./view.js").Item} Item */
/**
 * The element that an event is of.
 * @param {Event} event @returns {any}
 */
const targetOf = event => event.target;
const isSkipped = (/** @type {Item} */ item) => SKIPPED.has(item.t) || (item.t === "rest" && view.isRecord);

/**
 * Selects a line: the nearest one that can be.
 * @param {number} place
 */
export function select(place, keepsCell = false) {
  const { items, program } = view;
  if (!items.length) return;
  const step = place < view.selected ? -1 : 1;
  let at = Math.max(0, Math.min(items.length - 1, place));
  while (isSkipped(items[at]) && items[at + step]) at += step;
  if (isSkipped(items[at])) at = Math.max(0, items.findIndex(item => !isSkipped(item)));
  view.selected = at;
  if (!keepsCell) view.cell = -1;
  view.lit.clear();
  const item = items[at];
  if (item.t === "row") {
    const before = placeOf(item) - 1;
    for (const key of program.work(item.text).reads) view.lit.add(program.writer(key, before) || `in ${key}`);
  }
  reveal();
  tellCell();
  draw();
}
selectsBy(select);

/**
 * Keeps the selection on its line where lines came or went; a new row is selected.
 * @param {any} was
 */
export function keepSelected(was) {
  const at = was && view.place.get(was.id);
  view.selected = at ?? Math.max(0, Math.min(view.selected, view.items.length - 1));
  const fresh = view.program.fresh;
  view.program.fresh = 0;
  const place = view.place.get(fresh);
  if (fresh && place !== undefined && !view.editing && !view.isRecord) select(place);
}

/** The number at the cursor, in words. */
export function tellCell() {
  const words = cellWords(view.items[view.selected], view.cell);
  $("cell").textContent = words ? `${words.head}${words.number}${words.rest.replace(/\n/g, " · ")}` : "";
}

/** @param {Item|undefined} item @param {number} cell */
function cellWords(item, cell) {
  if (!isValue(item) || cell < 0) return null;
  const key = keyOf(item), value = key && have(key, rowOf(item), true);
  return value && cell < value.numbers.length ? told(key, rowOf(item), cell, value) : null;
}

/**
 * The next row that has a mark.
 * @param {number} step
 */
function next(step) {
  const { items, program, selected } = view, count = items.length;
  const hasMark = (/** @type {Item} */ item) => item.t === "row" &&
    (program.faults.has(item.id) || program.unsettled.has(item.id) || program.changedRows.has(item.id));
  for (let k = 1; k <= count; k++) {
    const i = (selected + step * k + count * 2) % count;
    if (hasMark(items[i])) { select(i); return; }
  }
  say("No row has a mark.");
}

/**
 * Goes to a row, 0 being the input data of a key.
 * @param {number} row @param {string} [key]
 */
export function goTo(row, key) {
  const place = view.place.get(row || `in ${key}`);
  if (place !== undefined) select(place);
  $("list").focus();
}

function goToWriter() {
  const item = view.items[view.selected], key = item?.t === "row" ? view.program.work(item.text).reads[0] : undefined;
  if (key) goTo(view.program.writer(key, placeOf(item) - 1), key);
}

/**
 * Has something done that isn't an edit.
 * @param {string} name @param {any} [body]
 */
export async function act(name, body) {
  if (view.program.isFollowed && name !== "restart") {
    say("An edit is taken back in the text of the file.");
    return;
  }
  const said = await view.link.ask(name, body);
  if (said.refused) say(said.refused.text, true);
}
const turnWork = () => view.isRecord ? undefined : act(view.program.state.on ? "stop" : "go");

/** Has all that is in view drawn anew. */
export function redraw() { forgetDrawn(); forgetPanel(); }

/** @param {string} theme */
function setTheme(theme) {
  root.dataset.theme = theme;
  redraw();
  draw();
}
function turnTheme() {
  const theme = isDark() ? "light" : "dark";
  setTheme(theme);
  store.set("theme", theme);
}
/**
 * Sets the size of letters in pixels, which all heights follow.
 * @param {number} size
 */
function setSize(size) {
  view.size = Math.max(LEAST, Math.min(MOST, size));
  root.style.setProperty("--u", `${view.size}px`);
  root.style.setProperty("--lh", `${Math.round(view.size * 1.7)}px`);
}
/**
 * Makes all larger or smaller.
 * @param {number} by
 */
function resize(by) {
  setSize(view.size + by);
  store.set("size", String(view.size));
  redraw();
  lay();
}
function turnBase() {
  view.base = BASES[(BASES.indexOf(view.base) + 1) % BASES.length];
  $("base").textContent = view.base;
  redraw();
  lay();
}
function turnDensity() {
  view.density = DENSITIES[(DENSITIES.indexOf(view.density) + 1) % DENSITIES.length];
  $("density").textContent = view.density;
  redraw();
  lay();
}

/**
 * Looks for rows by the words of the filter.
 * @param {string} text
 */
export function find(text) {
  const was = view.items[view.selected];
  $("filter").value = view.filter = text;
  build();
  keepSelected(was);
  select(view.selected);
}

/** @param {number} by */
function moveCell(by) {
  const item = view.items[view.selected], key = isValue(item) && keyOf(item);
  if (!key) return;
  view.cell = Math.max(-1, Math.min(view.program.processors(key) - 1, view.cell + by));
  tellCell();
  draw();
}

function enter() {
  const item = view.items[view.selected];
  if (item?.t === "row") begin("replace", item);
  else if (item?.t === "in") {
    view.cell = Math.max(0, view.cell);
    draw();
    requestAnimationFrame(() => editCell(item, view.cell));
  } else if (item?.t === "rest") {
    view.showsRest = true;
    build();
    select(view.selected);
  }
}

/** @param {boolean} isAbove */
function insert(isAbove) {
  const item = view.items[view.selected], { program } = view;
  if (item?.t !== "row") { begin("insert", isAbove ? 0 : undefined); return; }
  const place = placeOf(item);
  begin("insert", !isAbove ? item.id : place > 0 ? program.ids[place - 1] : 0);
}

function escape() {
  document.body.classList.remove("sheet");
  if (view.filter) find("");
}

const page = () => Math.max(1, Math.floor($("list").clientHeight / view.lh) - 2);
const move = (/** @type {number} */ by) => select(view.selected + by, view.cell >= 0 && Math.abs(by) === 1);
/** @typedef {Object<string, () => void>} Keys what each of them does */
/** @type {Keys} */
const KEYS = {
  ArrowDown: () => move(1), j: () => move(1), ArrowUp: () => move(-1), k: () => move(-1),
  PageDown: () => move(page()), PageUp: () => move(-page()),
  Home: () => select(0), End: () => select(view.items.length - 1),
  ArrowRight: () => moveCell(1), ArrowLeft: () => moveCell(-1),
  Enter: enter, o: () => insert(false), O: () => insert(true),
  Delete: remove, "/": () => $("filter").focus(), n: () => next(1), N: () => next(-1), w: goToWriter,
  ":": () => openCommand(), d: turnDensity, b: turnBase, t: turnTheme, "+": () => resize(1), "=": () => resize(1),
  "-": () => resize(-1), i: () => { togglePanel(); lay(); }, " ": turnWork,
  "?": () => $("sheet").showModal(), Escape: escape,
};

/** @param {KeyboardEvent} event */
function pressed(event) {
  const { key } = event, target = targetOf(event);
  if (target.matches("input, textarea")) { if (target === $("filter")) pressedInFilter(event); return; }
  if ($("sheet").open || !view.program) return;
  const isControl = event.ctrlKey || event.metaKey, letter = key.toLowerCase();
  if (isControl && (letter === "z" || letter === "y")) {
    event.preventDefault();
    act(letter === "y" || event.shiftKey ? "redo" : "undo");
    return;
  }
  if (isControl && letter === "p") {
    // A printed page has all rows, also those whose values weren't asked for.
    event.preventDefault();
    ensureAll().then(() => print());
    return;
  }
  const isPress = (key === "Enter" || key === " ") && target.closest("button, a, input[type=range]");
  if (isControl || event.altKey || isPress) return;
  if (!Object.hasOwn(KEYS, key)) return;
  event.preventDefault();
  KEYS[key]();
}

/** @param {KeyboardEvent} event */
function pressedInFilter(event) {
  if (event.key === "Escape") { find(""); $("list").focus(); }
  if (event.key === "Enter" || event.key === "ArrowDown") { event.preventDefault(); $("list").focus(); }
}

/** @param {KeyboardEvent} event */
function pressedInLine(event) {
  const target = targetOf(event);
  if (!view.editing || !target.closest(".edit")) return;
  event.stopPropagation();
  const keys = /** @type {Keys} */ ({ Enter: commit, Escape: cancel, Tab: () => complete(target) });
  if (!Object.hasOwn(keys, event.key) || (event.key === "Tab" && event.shiftKey)) return;
  event.preventDefault();
  keys[event.key]();
}

// The pointer.

/** @param {MouseEvent} event */
function clickedList(event) {
  const target = targetOf(event), item = itemAt(target);
  if (!item || target.closest("input")) return;
  const place = view.place.get(item.id) ?? 0, isAgain = place === view.selected, i = cellAt(event, item);
  if (view.editing && view.editing.id !== item.id) cancel();
  select(view.place.get(item.id) ?? place);
  if (item.t === "rest") { enter(); return; }
  if (i !== null) {
    view.cell = i;
    tellCell();
    draw();
    if (item.t === "in") requestAnimationFrame(() => editCell(item, i));
  }
  if (innerWidth > WIDE || !isAgain || i !== null) return;
  document.body.classList.toggle("sheet");
  forgetPanel();
  reveal();
  draw();
}

/**
 * The processor that the pointer is at in a line, or null.
 * @param {MouseEvent} event @param {Item} item
 */
function cellAt(event, item) {
  const target = targetOf(event);
  if (target.dataset?.i !== undefined) return Number(target.dataset.i);
  if (!isValue(item)) return null;
  const x = event.offsetX / target.clientWidth, y = event.offsetY / target.clientHeight;
  if (target.matches?.("canvas.map")) {
    return Math.floor(y * target.height) * target.width + Math.floor(x * target.width);
  }
  if (!target.matches?.("canvas.strip")) return null;
  const count = view.program.processors(keyOf(item));
  return Math.min(count - 1, Math.max(0, Math.floor(x * count)));
}

/**
 * What the buttons of the panel do with the selected row.
 * @type {Object<string, (item: Item) => void>}
 */
const rowActs = { edit: item => begin("replace", item), new: () => insert(false), delete: remove };

/** @param {MouseEvent} event */
function clickedPanel(event) {
  const target = targetOf(event), item = view.items[view.selected];
  if (target.dataset.act !== undefined) {
    document.body.classList.remove("sheet");
    rowActs[target.dataset.act](item);
    return;
  }
  if (target.dataset.go !== undefined) { goTo(Number(target.dataset.go), target.dataset.key); return; }
  const spot = spotOf(event);
  if (!spot || !isValue(item) || spot.key !== keyOf(item) || spot.row !== rowOf(item)) return;
  view.cell = spot.i;
  tellCell();
  draw();
  if (item.t === "in") editCell(item, spot.i);
}

/**
 * The key, the row and the processor that the pointer is at, in a line or in the panel.
 * @param {MouseEvent} event
 */
function spotOf(event) {
  const target = targetOf(event), item = itemAt(target);
  if (item) {
    const i = cellAt(event, item);
    return i === null || !isValue(item) ? null : { key: keyOf(item), row: rowOf(item), i };
  }
  const table = target.closest?.("table");
  if (table && target.dataset?.i !== undefined) {
    return { key: table.dataset.key, row: Number(table.dataset.row), i: Number(target.dataset.i) };
  }
  if (!target.matches?.("canvas.pic")) return null;
  const { key, row } = target.dataset, count = view.program.processors(key);
  if (view.program.value(key, Number(row))?.isStrip) {
    return { key, row: Number(row), i: Math.min(count - 1, Math.floor(event.offsetX / target.clientWidth * count)) };
  }
  const x = Math.floor(event.offsetX / target.clientWidth * target.width);
  const y = Math.floor(event.offsetY / target.clientHeight * target.height);
  return { key, row: Number(row), i: Math.min(count - 1, Math.max(0, y * target.width + x)) };
}

/** @type {ReturnType<typeof setTimeout>|undefined} */
let waiting;
/**
 * Any number that the pointer is at, with its processor, its row, and what it was before the edit.
 * @param {MouseEvent} event
 */
function pointed(event) {
  const tip = $("tip"), spot = view.program ? spotOf(event) : null;
  clearTimeout(waiting);
  const value = spot && have(spot.key, spot.row, true);
  if (spot && !value && view.program.isSettled(spot.row)) {
    waiting = setTimeout(async () => { await ensure([[spot.key, spot.row, true]]); pointed(event); }, 60);
  }
  tip.hidden = !value || value.numbers[spot.i] === undefined;
  if (!spot || !value || tip.hidden) return;
  const words = told(spot.key, spot.row, spot.i, value);
  tip.innerHTML = `${safe(words.head)}<b>${safe(words.number)}</b>${safe(words.rest)}`;
  const box = tip.getBoundingClientRect(), below = event.clientY + 18;
  tip.style.left = `${Math.max(2, Math.min(event.clientX + 14, innerWidth - box.width - 6))}px`;
  tip.style.top = `${below + box.height > innerHeight ? event.clientY - box.height - 10 : below}px`;
}

/** @param {MouseEvent} event */
function clickedNotice(event) {
  const what = targetOf(event).dataset.do, { program } = view;
  if (what === "next") {
    const ids = [...program.faults.keys()], now = view.items[view.selected]?.id;
    goTo(ids[(ids.indexOf(Number(now)) + 1) % ids.length]);
  }
  if (what === "only") find(view.filter === ":refused" ? "" : ":refused");
  if (what === "pen" || what === "restart") act(what);
}

/** Watches keys, the pointer, and the buttons. */
export function watch() {
  const list = $("list");
  document.addEventListener("keydown", pressed);
  $("space").addEventListener("keydown", pressedInLine);
  document.addEventListener("pointermove", pointed);
  list.addEventListener("scroll", () => { $("tip").hidden = true; draw(); }, { passive: true });
  list.addEventListener("click", clickedList);
  list.addEventListener("dblclick", (/** @type {MouseEvent} */ event) => {
    const item = view.items[view.selected];
    if (item?.t === "row" && targetOf(event).closest(".instr")) begin("replace", item);
  });
  $("inspect").addEventListener("click", clickedPanel);
  $("notice").addEventListener("click", clickedNotice);
  const closeGone = (/** @type {MouseEvent} */ event) => {
    if (targetOf(event).matches("button")) $("gone").hidden = true;
  };
  $("gone").addEventListener("click", closeGone);
  $("filter").addEventListener("input", () => find($("filter").value));
  const clicks = {
    undo: () => act("undo"), redo: () => act("redo"), go: turnWork, theme: turnTheme,
    help: () => $("sheet").showModal(), base: turnBase, density: turnDensity,
    new: () => insert(false), send: () => openCommand(), shut: closeCommand,
  };
  for (const [id, click] of Object.entries(clicks)) $(id).addEventListener("click", click);
  $("history").addEventListener("change", () => act("history", { place: $("history").value }));
}

/** Takes the theme and the size that were chosen before. */
export function recall() {
  const size = Number(store.get("size"));
  setTheme(store.get("theme") || (matchMedia("(prefers-color-scheme: dark)").matches ? "dark" : "light"));
  if (size) setSize(size);
  $("density").textContent = view.density;
  $("base").textContent = view.base;
}
