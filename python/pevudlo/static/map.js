// The map of all rows, in three lanes, so that place and shape tell what colour tells: refused, unsettled, changed.
import { $, css, draw, isDark, view } from "./view.js";

const WIDE = 16, MANY = 900;

/** Draws the map. */
export function drawMap() {
  const map = $("map"), ratio = devicePixelRatio || 1, tall = map.clientHeight;
  if (!tall) return;
  const paint = map.getContext("2d"), across = Math.round(WIDE * ratio), down = Math.round(tall * ratio);
  // (a canvas that gets a size is laid out anew)
  if (map.width !== across || map.height !== down) { map.width = across; map.height = down; }
  paint.setTransform(ratio, 0, 0, ratio, 0, 0);
  paint.clearRect(0, 0, WIDE, tall);
  const list = $("list"), end = view.tops[view.items.length] || 1, scale = tall / Math.max(end, list.clientHeight);
  if (end > list.clientHeight) drawWindow(paint, list, scale);
  drawMarks(paint, scale);
  paint.fillStyle = css("--sel");
  paint.fillRect(0, view.tops[view.selected] * scale, WIDE, 1.5);
}

/** @param {CanvasRenderingContext2D} paint @param {HTMLElement} list @param {number} scale */
function drawWindow(paint, list, scale) {
  const top = list.scrollTop * scale, tall = Math.max(6, list.clientHeight * scale);
  paint.fillStyle = css("--sel-soft");
  paint.fillRect(0, top, WIDE, tall);
  paint.strokeStyle = css("--sel");
  paint.strokeRect(0.5, top + 0.5, WIDE - 1, tall - 1);
}

/**
 * What marks a line has.
 * @param {import("./model.js").Program} program @param {import("./view.js").Item} item
 */
function markOf({ unsettled, faults, changedRows }, item) {
  const isChanged = changedRows.has(item.id);
  if (item.t !== "row") return isChanged ? "changed" : "";
  if (unsettled.has(item.id)) return isChanged ? "openchanged" : "open";
  if (faults.has(item.id)) return isChanged ? "badchanged" : "bad";
  return isChanged ? "changed" : "";
}

/** @param {CanvasRenderingContext2D} paint @param {number} scale */
function drawMarks(paint, scale) {
  const { items, tops, lh, program } = view, isMany = items.length > MANY, tall = Math.max(1, Math.min(lh * scale, 4));
  let last = -1, before = "";
  for (let i = 0; i < items.length; i++) {
    const item = items[i], mark = markOf(program, item), y = tops[i] * scale;
    // A pixel of the map stands for several rows of a long program: the first of each kind is drawn there.
    if (isMany && (!mark || (mark === before && y - last < 1))) continue;
    last = y;
    before = mark;
    drawMark(paint, mark, y, tall, !isMany && item.t === "row");
  }
}

/**
 * @param {CanvasRenderingContext2D} paint @param {string} mark @param {number} y @param {number} tall
 * @param {boolean} isRow
 */
function drawMark(paint, mark, y, tall, isRow) {
  if (mark.startsWith("open")) {
    paint.fillStyle = css("--open");
    paint.fillRect(6, y, 4, Math.max(1, tall * 0.8));
  } else if (mark.startsWith("bad")) {
    paint.fillStyle = css("--bad");
    paint.beginPath();
    paint.moveTo(1, y - 2);
    paint.lineTo(5, y + 1);
    paint.lineTo(1, y + 4);
    paint.fill();
  } else if (isRow) {
    paint.fillStyle = css("--line2");
    paint.fillRect(7, y, 2, Math.max(1, tall * 0.6));
  }
  if (mark.endsWith("changed")) {
    paint.fillStyle = isDark() ? css("--new") : "#d99a00";
    paint.fillRect(11, y, 4, Math.max(2, tall));
  }
}

/** A click on the map, or a drag along it, scrolls the list. */
export function watchMap() {
  const map = $("map"), list = $("list");
  const go = (/** @type {PointerEvent} */ event) => {
    const end = Math.max(view.tops[view.items.length], list.clientHeight);
    list.scrollTop = event.offsetY / map.clientHeight * end - list.clientHeight / 2;
    draw();
  };
  map.addEventListener("pointerdown", (/** @type {PointerEvent} */ event) => {
    map.setPointerCapture(event.pointerId);
    go(event);
    map.onpointermove = go;
  });
  map.addEventListener("pointerup", () => { map.onpointermove = null; });
}
