// Values of what is in view: each is asked for once, and again where an edit touched the row that wrote it.
import { BEFORE, COMPARED, NOW } from "./link.js";
import { isValue, keyOf, placeOf, rowOf, view } from "./view.js";

const LARGE = 1024, MOST_AT_ONCE = 200, AT_ONCE = 25;
/** @typedef {{key: string, row: number, name: string, stamp: string, which: number}} Asked a value that is asked for */
/** @type {Map<string, string>} what was asked for, by name, with the stamp that it had */
const asked = new Map();
let serial = 0;

/** Whether nothing is asked for that hasn't come. */
export const isIdle = () => asked.size === 0;

/**
 * A value that is what its row leaves now, whole or at least as a strip. Of an unsettled row there is none.
 * @param {string} key @param {number} row @param {boolean} isWhole
 */
export function have(key, row, isWhole) {
  const { program } = view;
  if (!program.isSettled(row)) return null;
  const value = program.value(key, row);
  return value && !value.isStale && (!isWhole || !value.isStrip) ? value : null;
}

/** @typedef {import("./view.js").ValueItem} ValueItem */
/** @typedef {[string, number, boolean]} Wanted a key, the row that wrote it, and whether its value is wanted whole */
/**
 * The context of a line and the row that wrote it, where it isn't all ones as it was declared.
 * @param {import("./view.js").RowItem} item @returns {[string, number]|null}
 */
export function contextOf(item) {
  const { program } = view, { context } = program.work(item.text);
  const row = context ? program.writer(context, placeOf(item) - 1) : 0;
  return context && (row || program.given.includes(context)) ? [context, row] : null;
}

/**
 * The values that a line needs, and of the selected one what the panel needs.
 * @param {ValueItem} item @param {boolean} isPanel
 */
export function needs(item, isPanel) {
  const { program } = view, found = /** @type {Wanted[]} */ ([]), main = keyOf(item);
  /** @param {string} key @param {number} row @param {boolean} isWhole */
  const want = (key, row, isWhole) => {
    if (program.isSettled(row)) found.push([key, row, isWhole || isSmall(key)]);
  };
  if (item.t !== "row") { if (!item.pending) want(item.key, rowOf(item), isPanel); return found; }
  const { writes, reads } = program.work(item.text), before = placeOf(item) - 1, context = contextOf(item);
  for (const key of writes) want(key, item.id, isPanel && key === main);
  if (main && (isSmall(main) || isPanel)) {
    want(main, program.writer(main, before), false);
    if (context) want(context[0], context[1], isSmall(main));
  }
  if (isPanel) for (const key of reads) want(key, program.writer(key, before), isSmall(key));
  return found;
}
const isSmall = (/** @type {string} */ key) => view.program.processors(key) <= LARGE;

/**
 * Of what is wanted, what isn't there and isn't asked for.
 * @param {Wanted[]} wanted
 */
function missing(wanted) {
  const { program } = view, looks = /** @type {import("./link.js").Look[]} */ ([]), of = /** @type {Asked[]} */ ([]);
  const whole = new Set(wanted.filter(([, , isWhole]) => isWhole).map(([key, row]) => `${key}@${row}`));
  for (const [key, row, isWhole] of wanted) {
    if (!isWhole && whole.has(`${key}@${row}`)) continue;
    const name = `${key}@${row} ${isWhole}`, stamp = `${program.stamp(key, row)} ${program.edits}`;
    if (have(key, row, isWhole) || asked.get(name) === stamp) continue;
    asked.set(name, stamp);
    const add = (/** @type {boolean} */ isStrip, /** @type {number} */ which) => {
      looks.push([key, row, isStrip ? 1 : 0, which]);
      of.push({ key, row, name, stamp, which });
    };
    const old = program.value(key, row), isTouched = program.isTouched(key, row);
    if (!isWhole) add(true, isTouched ? COMPARED : NOW);
    else {
      // What it was before the edit is asked for where it isn't known.
      const isKnown = old && (old.isStale ? !old.isStrip : old.was);
      if (isTouched && !isKnown) add(false, BEFORE);
      add(false, NOW);
    }
    if (looks.length > MOST_AT_ONCE) break;
  }
  return { looks, of };
}

/**
 * Asks for values that are wanted. Gives whether columns grew by what came.
 * @param {Wanted[]} wanted
 */
export async function ensure(wanted) {
  const { program, link } = view, { looks, of } = missing(wanted);
  if (!looks.length) return null;
  const came = await link.look(looks);
  let was = /** @type {any} */ (null), hasGrown = false, isAny = false;
  of.forEach(({ key, row, name, stamp, which }, i) => {
    if (asked.get(name) === stamp && which !== BEFORE) asked.delete(name);
    const value = came?.[i], isNow = stamp === `${program.stamp(key, row)} ${program.edits}`;
    if (which === BEFORE) { was = isNow && value?.numbers ? value.numbers : null; return; }
    // (a row that an edit has touched meanwhile leaves something else by now)
    const isFit = value && !value.isMissing && isNow && program.isSettled(row);
    if (isFit) {
      value.id = ++serial;
      value.was = was;
      const columns = program.columns(key), before = program.digits.get(columns);
      program.put(key, row, value);
      hasGrown ||= before !== program.digits.get(columns);
      isAny = true;
    }
    was = null;
  });
  return isAny ? { hasGrown } : null;
}

/** Asks for the values of all lines, as for a page that is printed. */
export async function ensureAll() {
  const items = view.items.filter(isValue);
  for (let i = 0; i < items.length; i += AT_ONCE) {
    await ensure(items.slice(i, i + AT_ONCE).flatMap(item => needs(item, false)));
  }
}

/**
 * Whether all that a line shows is there.
 * @param {import("./view.js").Item} item
 */
export function hasAll(item) {
  return !isValue(item) || !view.program.isSettled(rowOf(item)) || view.isRecord ||
    needs(item, false).every(([key, row, whole]) => have(key, row, whole));
}
