// The page of a seat: a student's program, the board of who teaches, or the wall.
import { Board } from "./board.js";
import { Entries } from "./entries.js";
import { SeatLink } from "./seat_link.js";
import { Sheet, markOf } from "./sheet.js";
import { button, element, visible } from "./shown.js";

/** @param {string} id */
const $ = id => /** @type {HTMLElement} */ (document.getElementById(id));

/** @typedef {import("./seat_link.js").Answer} Answer */

/** @param {string} words */
function say(words) {
  if (!link.isOver) $("said").textContent = words.split("\n").map(visible).join("\n");
}

/** @type {SeatLink} */
const link = new SeatLink({
  entered: text => { sheet.entered(text); whose(text.name); },
  done: operation => sheet.done(operation),
  state: (name, told) => state(name, told),
  hello: told => hello(told),
  bye: words => { $("said").textContent = visible(`You can't be here: ${words}.`); $("rows").textContent = ""; },
  lost: () => say("Nobody answers. It is tried again."),
});
/** @type {Sheet} */
const sheet = new Sheet($("sheet"), $("panel"), link, say);
const board = new Board($("board"), link, say, (seat, name) => {
  whose(seat ? name : "");
  sheet.canEdit = true;
});
const entries = new Entries($("panel"), link, say);
sheet.asked = id => { if (me.mode === "shared") entries.open(id); };
/** @type {Answer} */
let me = {};

/**
 * Says whose program it is.
 * @param {string} name
 */
function whose(name) {
  const isWall = me.kind === "looking" && me.mode === "class";
  const isOther = me.kind === "teacher" && me.mode === "class";
  $("whose").textContent = visible(isWall ? name : isOther ? name && `${name}'s program` : me.name);
}

/** @param {Answer} told */
function hello(told) {
  me = told;
  say("");
  document.title = `${told.title} - ${told.name}`;
  $("title").textContent = visible(told.title);
  $("join").hidden = true;
  if (told.token) {
    history.replaceState(null, "", `#${told.token}`);
    link.first = { do: "sit", token: told.token };
  }
  sheet.me = told.seat;
  sheet.canEdit = told.kind !== "looking";
  sheet.sendsStill = told.mode === "class";
  sheet.people = new Map(told.seats ?? []);
  sheet.mayChangeLocked = entries.teaches = told.kind === "teacher";
  document.body.classList.toggle("isWall", told.kind === "looking" && told.mode === "class");
  document.body.classList.toggle("isShared", told.mode === "shared");
  $("acts").textContent = "";
  if (told.kind !== "looking") $("acts").append(button("Undo", undo, "takes your own last edit back"));
  if (told.mode === "shared") $("acts").append(button("Who did what", () => entries.open(0)));
  if (told.history && told.kind === "teacher") {
    $("acts").append(button("Check the history", checkHistory, "makes all of it again, and compares the replies"));
  }
  if (told.kind === "student" && told.mode === "class") studentActs();
  if (told.kind === "teacher" && told.mode === "class") board.begin(told.checks, told.seats);
}

/** Has the history checked, and says what came of it. */
async function checkHistory() {
  say("The history is being checked.");
  const answer = await link.ask("audit"), made = `${answer.entries} entries of this chapter were made again`;
  const holds = answer.agrees ? "The history holds" : "The history does not hold";
  const found = answer.agrees ? "and each reply was the same" : "and a reply was another one";
  say(answer.refused ?? `${holds}: ${made}, ${found}.`);
}

/** What a student may do beside editing. */
function studentActs() {
  $("acts").append(
    button("Hand in", async () => {
      const answer = await link.ask("hand-in");
      say(answer.refused ?? `Handed in at ${new Date(1000 * answer.handed).toLocaleTimeString("en-GB")}.`);
    }),
    button("Earlier texts", () => chapters(), "goes back to a text that you had before"),
    button("Download", download),
  );
}

/** Takes the own last edit back. */
async function undo() {
  sheet.leave();
  const answer = await link.ask("undo");
  say(answer.refused ?? "");
}

/** Offers the texts that there were. */
async function chapters() {
  const answer = await link.ask("chapters"), panel = $("panel");
  panel.textContent = "";
  panel.hidden = false;
  panel.append(button("×", () => { panel.hidden = true; }, "close"), element("h2", "", "Earlier texts"));
  const told = /** @type {[string, number][]} */ (answer.chapters ?? []);
  told.slice(0, -1).forEach(([name, time], chapter) => {
    const row = element("p", "", `${new Date(1000 * time).toLocaleTimeString("en-GB")} ${name} `);
    row.append(button("Back to it", async () => {
      const done = await link.ask("back", { chapter });
      panel.hidden = true;
      say(done.refused ?? "");
    }));
    panel.append(row);
  });
  if (told.length < 2) panel.append(element("p", "", "There is none yet."));
}

/** Gives the text as a file. */
function download() {
  const text = sheet.lines.map(line => `${line.text}\n`).join("");
  const anchor = element("a");
  anchor.href = URL.createObjectURL(new Blob([text], { type: "text/plain" }));
  anchor.download = me.title;
  anchor.click();
  setTimeout(() => URL.revokeObjectURL(anchor.href), 1000);
}

/** @param {string} name @param {any} told */
function state(name, told) {
  const number = Number(name.replace(/^\D+/, ""));
  if (name === "rows") {
    const rows = `${told.left} row${told.left === 1 ? "" : "s"} to run`;
    $("rows").textContent = told.trouble ? visible(told.trouble) : told.left ? rows : "all rows are settled";
  } else if (/^v\d+$/.test(name)) sheet.gives(number, told);
  else if (/^board\d+$/.test(name)) board.told(number, told);
  else if (/^caret\d+$/.test(name)) sheet.caret(number, told);
  else if (name === "people") {
    const people = /** @type {[number, string, string][]} */ (told);
    for (const [seat, called] of people) sheet.people.set(seat, called);
    const names = people.map(([seat, called]) => `${markOf(seat)} ${called}`);
    $("people").textContent = visible(`${names.length} here: ${names.join(", ")}`);
  } else if (name === "locks") {
    sheet.lock(told);
    entries.locked = new Set(told);
  }
}

/** Begins by what stands behind the sign # of the address. */
function begin() {
  const word = decodeURIComponent(location.hash.slice(1));
  if (word.startsWith("join:")) {
    const form = /** @type {HTMLFormElement} */ ($("join")), name = /** @type {HTMLInputElement} */ ($("name"));
    form.hidden = false;
    name.focus();
    form.addEventListener("submit", event => {
      event.preventDefault();
      link.start({ do: "join", token: word.slice(5), name: name.value });
    });
  } else if (word) link.start({ do: "sit", token: word });
  else say("This address has no token: take the whole one that you were given.");
}

begin();
window.addEventListener("hashchange", () => location.reload());
