// The text of a file that is followed: what is typed goes into it, and beside each visible line stands what it gives.
import { $ } from "./view.js";

const area = $("text");
const beside = $("beside");
// The text that the server has, by its number; the number that was heard of last; whether nothing is to be held.
let known = { number: 0, text: "" };
let heard = 0;
let isSaved = false;

/** @typedef {{start: number, end: number, text: string}} Edit what stands in a text from a place on up to an end */
/** @typedef {{number: number, text: string}} Text */

/**
 * Where two texts differ: from a place on, up to an end in the first one, with what stands there in the second.
 * @param {string} one @param {string} other
 */
function differs(one, other) {
  const shorter = Math.min(one.length, other.length);
  let start = 0;
  while (start < shorter && one[start] === other[start]) start++;
  let end = 0;
  while (end < shorter - start && one[one.length - 1 - end] === other[other.length - 1 - end]) end++;
  return { start, end: one.length - end, text: other.slice(start, other.length - end) };
}

/** @param {string} text @param {Edit} edit */
const put = (text, edit) => text.slice(0, edit.start) + edit.text + text.slice(edit.end);

/**
 * An edit of a text as one of another text, or null where both change the same part.
 * @param {Edit} edit @param {string} from @param {string} to @returns {Edit|null}
 */
function moved(edit, from, to) {
  const theirs = differs(from, to);
  if (edit.end < theirs.start) return edit;
  const by = to.length - from.length;
  return edit.start > theirs.end ? { start: edit.start + by, end: edit.end + by, text: edit.text } : null;
}

/**
 * Puts another text into the area; the cursor stays where it was in it.
 * @param {string} text
 */
function show(text) {
  if (area.value === text) return;
  const edit = differs(area.value, text);
  const by = text.length - area.value.length;
  const place = (/** @type {number} */ old) => (old <= edit.start ? old : Math.max(edit.start, old + by));
  const [start, end, top] = [place(area.selectionStart), place(area.selectionEnd), area.scrollTop];
  area.value = text;
  area.setSelectionRange(start, end);
  area.scrollTop = top;
}

/** @param {string} words */
function say(words) { $("text-answer").textContent = words; }

/**
 * Another text is there: what was typed since the known one goes into it, where that is another part.
 * @param {Text} news
 */
function take(news) {
  const mine = known.number && known.text !== area.value ? differs(known.text, area.value) : null;
  const there = mine && moved(mine, known.text, news.text);
  if (mine && !there) say(`The file was changed in the same place, and what was typed isn't in it: ${mine.text}`);
  known = news;
  show(there ? put(news.text, there) : news.text);
  area.readOnly = news.text.includes("\r");
  if (area.readOnly) say("The file has carriage returns: it can't be edited here.");
}

/** @param {string} name */
async function get(name) {
  const answer = await fetch(name, { cache: "no-store" });
  return answer.json();
}

/** @param {Edit} edit @param {string} hold */
async function post(edit, hold) {
  const body = { was: String(known.number), start: String(edit.start), end: String(edit.end), text: edit.text, hold };
  const answer = await fetch("text", {
    method: "POST", headers: { "Content-Type": "application/json" }, body: JSON.stringify(body),
  });
  const isLong = answer.status === 413;
  return isLong ? { wrong: "That is too much at once: put it into the file elsewhere." } : answer.json();
}

/** Hands over what was typed. False where it can't be. */
async function send() {
  const typed = area.value;
  const hold = isSaved ? "" : "yes";
  isSaved = false;
  const answer = await post(differs(known.text, typed), hold);
  if (answer.other) { take(await get("text")); return true; }
  say(answer.wrong || "");
  if (answer.wrong) return false;
  know({ number: answer.number, text: typed });
  return true;
}

/** @param {Text} text the one that the server has now */
function know(text) { known = text; }

// One thing after another, until what was typed is there and what is there is shown.
let isBusy = false;
async function settle() {
  if (isBusy) return;
  isBusy = true;
  try {
    for (let goesOn = true; goesOn; ) {
      if (heard > known.number) take(await get("text"));
      else if (!area.readOnly && (isSaved || area.value !== known.text)) goesOn = await send();
      else goesOn = false;
    }
  } catch { /* The page says that nobody answers. */ }
  isBusy = false;
  await drawLines();
}

// What the visible lines give.
const height = () => parseFloat(getComputedStyle(area).lineHeight);
const first = () => Math.floor(area.scrollTop / height());

function placeLines() {
  beside.firstElementChild.style.marginTop = `${beside.first * height() - area.scrollTop}px`;
}

let isDrawing = false;
let isAgain = false;
async function drawLines() {
  isAgain = true;
  if (isDrawing) return;
  isDrawing = true;
  while (isAgain) {
    isAgain = false;
    const from = first();
    try {
      const news = await get(`lines?first=${from}&last=${from + Math.ceil(area.clientHeight / height())}`);
      if (news.number === known.number) draw(from, news);
    } catch { /* The page says that nobody answers. */ }
  }
  isDrawing = false;
}

/** @param {number} from @param {{head: string, number: number, lines: [string, string, string][]}} news */
function draw(from, news) {
  const list = document.createElement("ol");
  for (const [name, mark, text] of news.lines) {
    const line = document.createElement("li");
    line.dataset.state = name;
    line.textContent = `${mark.trim()} ${text}`.trim();
    line.title = text;
    list.append(line);
  }
  beside.first = from;
  beside.replaceChildren(list);
  placeLines();
  $("ran").textContent = news.head;
  document.body.dataset.text = String(news.number);
}

/** Watches the text, and shows it before the rest of the page, which takes its time where a program is large. */
export async function watchText() {
  area.addEventListener("input", settle);
  area.addEventListener("change", () => { isSaved = true; settle(); });
  area.addEventListener("scroll", () => { if (beside.firstElementChild) placeLines(); drawLines(); });
  area.addEventListener("keydown", (/** @type {KeyboardEvent} */ event) => {
    if (!(event.ctrlKey || event.metaKey) || event.key !== "s") return;
    event.preventDefault();
    isSaved = true;
    settle();
  });
  document.addEventListener("pevudlo-text", event => { heard = /** @type {CustomEvent} */ (event).detail; settle(); });

  try {
    heard = (await get("lines?first=0&last=0")).number;
    await settle();
  } catch { /* The page says that nobody answers. */ }
}
