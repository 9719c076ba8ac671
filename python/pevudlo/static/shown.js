// What lines give, and texts of others: all of it is put into the page as text.

/** What a key holds: its name, its width in bits, the lengths of its set's axes, and its first numbers. */
/** @typedef {[string, number, number[], string]} Value */

/** What a line gives: `s` says what became of it, `t` has words, `v` values. */
/** @typedef {{s?: string, t?: string, v?: Value[]}} Given */

// Marks that turn the direction of a text, or can't be seen.
const HIDDEN = /[\p{Cc}\u061c\u200b-\u200f\u202a-\u202e\u2060-\u2069\ufeff]/gu;

const MOST_LETTERS = 90;

const SIGNS = /** @type {Record<string, [string, string, string]>} */ ({
  wait: ["○", "isWaiting", "it has to run first"],
  refused: ["✗", "isRefused", "refused"],
  fault: ["!", "isFault", "it stores nothing"],
  gone: ["-", "isWaiting", "gone"],
  passed: ["·", "isWaiting", "rows run by themselves here"],
  note: ["i", "", "note"],
  look: ["→", "", "a look"],
  row: ["", "", ""],
});

/**
 * A text whose hidden marks are shown by their codes.
 * @param {string} text
 */
export function visible(text) {
  return text.replace(HIDDEN, mark => `\\u${mark.charCodeAt(0).toString(16).padStart(4, "0")}`);
}

/**
 * An element with a class and a text.
 * @template {keyof HTMLElementTagNameMap} Name
 * @param {Name} name @param {string} [kind] @param {string} [text] @returns {HTMLElementTagNameMap[Name]}
 */
export function element(name, kind = "", text = "") {
  const made = document.createElement(name);
  if (kind) made.className = kind;
  if (text) made.textContent = visible(text);
  return made;
}

/**
 * A button.
 * @param {string} text @param {() => void} act @param {string} [title]
 */
export function button(text, act, title = "") {
  const made = element("button", "", text);
  made.type = "button";
  if (title) made.title = title;
  made.addEventListener("click", act);
  return made;
}

/**
 * How many processors a value is of.
 * @param {Value} value
 */
function countOf(value) { return value[2].reduce((all, each) => all * each, 1); }

/**
 * A value in few letters.
 * @param {Value} value
 */
export function shortened(value) {
  const [key, width, , numbers] = value, name = key.split(".").at(-1) ?? key;
  const text = width === 1 ? numbers.replaceAll(" ", "") : numbers;
  if (text.length <= MOST_LETTERS && numbers.split(" ").length === countOf(value)) return [name, text];
  return [name, `${text.slice(0, MOST_LETTERS)} … ${countOf(value).toLocaleString("en")}`];
}

/**
 * What stands beside a line.
 * @param {HTMLElement} place @param {Given} given @param {(key: string) => void} open
 */
export function draw(place, given, open) {
  place.textContent = "";
  const sign = SIGNS[given.s ?? ""];
  place.className = `gives ${sign ? sign[1] : ""}`;
  if (!sign) return;
  if (sign[0]) {
    const mark = element("span", "sign", `${sign[0]} `);
    mark.title = sign[2];
    place.append(mark);
  }
  if (given.t) place.append(visible(given.t));
  for (const value of given.v ?? []) {
    const [name, text] = shortened(value), shown = button("", () => open(value[0]), "all numbers");
    shown.append(element("b", "", name), ` ${text}`);
    place.append(shown);
  }
}

/**
 * All numbers of a value as a grid: axis 0 across.
 * @param {HTMLElement} panel @param {Value|null} value
 */
export function drawAll(panel, value) {
  panel.textContent = "";
  panel.hidden = false;
  panel.append(button("×", () => { panel.hidden = true; }, "close"));
  if (!value) {
    panel.append(element("p", "", "It has to run first."));
    return;
  }
  const [key, width, axes, text] = value, numbers = text.split(" "), across = axes[0] ?? 1;
  panel.append(element("h2", "", `${key}: ${axes.join("x")}, ${width} bit${width === 1 ? "" : "s"}`));
  const table = element("table");
  for (let at = 0; at < numbers.length; at += across) {
    const row = element("tr");
    row.append(...numbers.slice(at, at + across).map(number => element("td", "", number)));
    table.append(row);
  }
  panel.append(table);
  if (numbers.length < countOf(value)) panel.append(element("p", "", `the first of ${countOf(value)} numbers`));
}
