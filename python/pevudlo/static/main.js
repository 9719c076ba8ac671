// The page: what comes is taken in, and what is in view is drawn, once a frame. It holds no number of its own.
import { grouped } from "./draw.js";
import { drawLog, noteOthers, watchCommand } from "./edit.js";
import { act, goTo, keepSelected, recall, redraw, select, tellCell, watch } from "./keys.js";
import { build, inView, isSameHeight, lay, reveal } from "./list.js";
import { Embedded, Served } from "./link.js";
import { drawMap, watchMap } from "./map.js";
import { Program } from "./model.js";
import { drawPanel, isPanelOpen } from "./panel.js";
import { drawRows, faultWords } from "./rows.js";
import { ensure, ensureAll, hasAll, isIdle, needs } from "./values.js";
import { $, code, draw, drawNow, drawsBy, fill, isSaying, isValue, keyOf, safe, view } from "./view.js";

/** @typedef {import("./model.js").Program["state"]} State */
const RESTS = 120, SMALL = 1024, MOST_PRINTED = 2000;

/**
 * Takes in what is new of the program.
 * @param {any} news
 */
function heard(news) {
  if (news.hello !== undefined && !view.program) { began(news); return; }
  view.isLost = false;
  const was = view.items[view.selected], moved = view.program.take(news);
  if (!moved) return;
  if (news.moment !== undefined) showMoment(news);
  noteOthers();
  if (moved.rows || view.filter) { build(); keepSelected(was); }
  else renew(moved.texts);
  if (news.log?.length) drawLog();
  if (news.text) document.dispatchEvent(new CustomEvent("pevudlo-text", { detail: news.text }));
  document.body.dataset.version = String(news.version);
  if (moved.isEdit) drawNow(); else { ask(); draw(); }
}

/** @param {import("./model.js").News} news */
function began(news) {
  view.program = new Program(news);
  document.title = `${news.hello} · Pevudlo`;
  $("name").textContent = news.hello;
  document.body.classList.toggle("followed", view.program.isFollowed);
  build();
  select(Math.max(0, view.items.findIndex(item => item.t === "row")));
  document.body.dataset.version = String(news.version);
  if (news.text) document.dispatchEvent(new CustomEvent("pevudlo-text", { detail: news.text }));
  ask();
}

/**
 * A moment of a script: its lines stand between the rows.
 * @param {any} news
 */
function showMoment(news) {
  const { data } = view.link, { notes, comments, said } = news;
  view.program.script = { notes, comments, said, intro: data.intro, left: data.left };
  for (const button of $("moments").querySelectorAll("button")) {
    button.setAttribute("aria-pressed", String(Number(button.dataset.moment) === news.moment));
  }
  if (view.items.length < MOST_PRINTED) setTimeout(ensureAll);
}

/** The buttons of a script's moments. */
function showMoments() {
  const { moments } = view.link.data, place = $("moments");
  document.body.classList.add("record");
  if (moments.length < 2) return;
  place.hidden = false;
  const titles = /** @type {string[]} */ (moments.map((/** @type {{title: string}} */ { title }) => title));
  const buttons = titles.map((title, i) => `<button data-moment="${i}">${i + 1} ${safe(title)}</button>`);
  place.innerHTML = `<span>Moments:</span>${buttons.join("")}`;
  place.addEventListener("click", (/** @type {any} */ { target }) => {
    const { moment } = target.dataset;
    if (moment !== undefined) view.link.go(Number(moment));
  });
}

/**
 * Lines whose text alone is another: the rest stays as it is.
 * @param {number[]} ids
 */
function renew(ids) {
  let isSame = true;
  for (const id of ids) {
    const place = view.place.get(id);
    if (place === undefined) continue;
    view.items[place].text = view.program.text.get(id);
    isSame &&= isSameHeight(place);
  }
  if (!isSame) lay();
}

/** Asks for the values of what is drawn, and of what the panel shows once the selection rests there. */
async function ask() {
  const item = view.items[view.selected], wanted = drawn.filter(isValue).flatMap(each => needs(each, false));
  if (isValue(item) && isPanelOpen() && isResting(item)) wanted.push(...needs(item, true));
  const came = await ensure(wanted);
  if (!came) return;
  if (came.hasGrown) lay();
  draw();
}
/** @type {import("./view.js").Item[]} */
let drawn = [];
let rested = { id: /** @type {any} */ (null), since: 0 };

/**
 * Whether a line has been selected for a while: who goes along many lines wants no whole value of each.
 * @param {import("./view.js").ValueItem} item
 */
function isResting(item) {
  const now = performance.now();
  if (rested.id !== item.id) { rested = { id: item.id, since: now }; setTimeout(draw, RESTS + 10); }
  return now - rested.since >= RESTS || view.program.processors(keyOf(item) ?? "") <= SMALL;
}

/** Draws the page. */
function render() {
  if (!view.program) return;
  // (what asks for sizes comes first, while nothing has changed in the document: it is laid out once)
  const shown = inView();
  drawMap();
  drawPanel();
  drawn = drawRows(shown).filter(item => item.t !== "row" || view.program.text.has(item.id));
  drawBar();
  drawNotice();
  tellCell();
  drawnVersion = view.program.version;
  ask();
}
let drawnVersion = 0;

/** @param {number} count @param {string} word */
const plural = (count, word) => `${grouped(count)} ${word}${count === 1 ? "" : "s"}`;

function drawBar() {
  const { program } = view, { state } = program, total = program.ids.length, open = program.unsettled.size;
  fill($("state"), stateHtml(total, open, state));
  if (!isSaying()) { $("said").className = ""; fill($("said"), saidHtml(open)); }
  const progress = $("progress");
  progress.className = open ? "" : "done";
  progress.firstElementChild.style.width = total ? `${100 * (total - open) / total}%` : "100%";
  progress.setAttribute("aria-valuemax", String(total));
  progress.setAttribute("aria-valuenow", String(total - open));
  for (const id of /** @type {["undo", "redo"]} */ (["undo", "redo"])) {
    $(id).disabled = !state[id];
    $(id).title = state[id] ? `${id}: ${state[id]}` : "";
  }
  $("go").textContent = state.on ? "Stop" : "Go on";
  $("go").disabled = !open && Boolean(state.on);
  drawHistory(state);
  const dropped = state.dropped ? `Older edits took more than ${state.dropped} of memory.` : "";
  $("late").textContent = [state.thrown?.[0], dropped].filter(Boolean).join(" ");
}

/** @param {number} total @param {number} open @param {State} state */
function stateHtml(total, open, state) {
  if (!total) return "no rows";
  const running = state.out ? `, ${state.out} run now` : state.on ? "" : ", stopped";
  const failure = state.failure ? ` <span class="bad">${safe(state.failure)}</span>` : "";
  const words = `of ${plural(total, "row")} unsettled${view.isRecord ? "" : running}${failure}`;
  if (open) return `<span class="open">○ ${grouped(open)}</span> ${words}`;
  return total === 1 ? "✓ the one row is settled" : `✓ all <b>${grouped(total)}</b> rows settled`;
}

/**
 * The last edit, and what it changed or touched.
 * @param {number} open
 */
function saidHtml(open) {
  const { program } = view, { line, changedRows, touched, script } = program;
  if (view.isRecord) {
    const parts = [line && `<code>${safe(line)}</code>`, safe(script.said)], { size } = changedRows;
    return [...parts, size && `<i>changes ${grouped(size)} in view</i>`].filter(Boolean).join(" · ");
  }
  if (!line) return "";
  const rows = [...touched].filter(each => typeof each === "number").length;
  const changed = changedRows.size ? ` <i>changes ${grouped(changedRows.size)} in view</i>` : "";
  const words = open ? "" : changed || (rows ? ` touched ${plural(rows, "row")}` : " touched no row");
  return `<code>${safe(line.slice(0, 60))}</code>${words}`;
}

/** @param {State} state */
function drawHistory(state) {
  const history = $("history");
  history.hidden = !state.of;
  if (history.hidden || document.activeElement === history) return;
  history.max = String(state.of);
  history.value = String(state.at);
  const words = `edit ${state.at} of ${state.of}`;
  history.title = words;
  history.setAttribute("aria-valuetext", words);
}

const LOST = "<b>✕ Nobody answers.</b><span>Was it ended by Ctrl-C? What is shown here is what it was.</span>";
const OTHER = '<b>Another tab edits</b><span>and this one looks.</span><button data-do="pen">Edit here</button>';
const ACTS = '<button data-do="next">Next</button><button data-do="only">Only these</button>';

/** What has to be known first: that the program has ended, that another tab edits, or that rows are refused. */
function noticeHtml() {
  const { program, link } = view, { state, faults } = program;
  if (view.isLost) return LOST;
  const again = '<button data-do="restart">Start again</button>';
  if (state.trouble) return `<b>✕ The program has ended.</b><span>${code(state.trouble)}</span>${again}`;
  if (state.editor && state.editor !== link.tab) return OTHER;
  if (!faults.size) return badLines(program.log);
  const one = faults.size === 1, [first] = faults.values();
  return `<b>✕ ${plural(faults.size, "row")} ${one ? "is" : "are"} refused for ${one ? "its" : "their"} data</b>` +
    `<span>row ${first[0]}: ${code(faultWords(first))}</span>${ACTS}`;
}

/**
 * Of a script the lines that were refused.
 * @param {import("./model.js").Step[]} log
 */
function badLines(log) {
  const bad = log.filter(step => step.refused && step.number), refused = bad[0]?.refused;
  if (!refused || view.program.edits) return "";
  const words = `${plural(bad.length, "line")} of the script ${bad.length === 1 ? "was" : "were"} refused`;
  return `<b>✕ ${words}</b><span>line ${bad[0].number}: ${code(refused.hint || refused.text)}</span>`;
}

function drawNotice() {
  const notice = $("notice"), html = noticeHtml(), wasHidden = notice.hidden;
  notice.hidden = !html;
  fill(notice, html);
  if (wasHidden !== notice.hidden) lay();
}

/** Nobody answers: what is shown stays, and the page says so. */
function lost() {
  view.isLost = true;
  draw();
}

/** Begins the page. */
async function start() {
  drawsBy(render);
  recall();
  watch();
  watchMap();
  watchCommand();
  const embedded = $("data");
  view.isRecord = Boolean(embedded);
  view.link = embedded ? new Embedded(heard, JSON.parse(embedded.textContent)) : new Served(heard, lost);
  if (embedded) showMoments();
  if ($("text")) await (await import("./text.js")).watchText();
  new ResizeObserver(() => { if (view.program) { redraw(); lay(); reveal(); } }).observe($("list"));
  addEventListener("beforeprint", () => { view.isPrinting = true; render(); });
  addEventListener("afterprint", () => { view.isPrinting = false; draw(); });
  await view.link.start();
  $("list").focus();
}

// For measurements and tests: what the page holds, and whether all that is in view is there.
Object.assign(window, {
  pevudlo: {
    view, act, goTo, isDrawn: () => Boolean(view.program) && drawnVersion === view.program.version,
    isAtRest: () => Boolean(view.program) && isIdle() && drawn.every(hasAll) &&
      (view.isRecord || !view.program.unsettled.size),
  },
});
start();
