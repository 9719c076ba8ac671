// Numbers as text, cells, strips and pictures. Functions of values: they know no program and no page.

export const BASES = ["unsigned", "signed", "hex", "bits"];
const MOST_LINES = 2, MOST_ACROSS = 64, STRETCHES = 256;

/**
 * A number of a width as a base has it.
 * @param {number|bigint} number @param {number} width @param {string} base
 */
export function spelled(number, width, base) {
  if (width === 1) return String(number);
  if (base === "hex") return number.toString(16).padStart(Math.ceil(width / 4), "0");
  if (base === "bits") return number.toString(2).padStart(width, "0");
  if (base !== "signed") return String(number);
  const big = BigInt(number);
  return String(big >> BigInt(width - 1) ? big - (1n << BigInt(width)) : big);
}

/**
 * How many digits a column has. `seen` is the most digits of unsigned numbers so far.
 * @param {number} width @param {string} base @param {number} seen
 */
export function digitsOf(width, base, seen) {
  if (width === 1) return 1;
  if (base === "hex") return Math.ceil(width / 4);
  if (base === "bits") return width;
  if (base === "signed") return Math.min(Math.ceil(width * 0.302) + 1, Math.max(seen + 1, 2));
  return Math.max(seen, 2);
}

/**
 * How a value of so many numbers stands in a line: numbers in lines of `per`, or a strip.
 * @param {number} count @param {number[]} axes @param {number} width @param {number} digits
 * @param {number} room pixels @param {number} ch pixels of a letter
 */
export function shape(count, axes, width, digits, room, ch, most = MOST_LINES) {
  const cell = width === 1 ? ch * 1.35 : (digits + 1) * ch;
  let group = axes.length > 1 && axes[0] <= MOST_ACROSS ? axes[0] : 8;
  while (axes.length === 1 && group > 1 && group * cell > room) group /= 2;
  const fits = Math.max(1, Math.floor((room + ch) / (group * cell + ch)));
  const per = Math.min(count, fits * group), lines = Math.ceil(count / per);
  const isWide = Math.min(count, group) * cell > room && count > 1;
  const isStrip = isWide || lines > most;
  return { isStrip, lines: isStrip ? 1 : lines, cell, group, per, digits };
}

/**
 * Numbers as cells. `off` are processors that aren't selected, `before` the numbers before the row.
 * @param {any} value @param {any} how
 */
export function cells(value, { width, base, form, off, before }) {
  const { numbers, changed } = value, out = [];
  for (let i = 0; i < numbers.length; i++) {
    if (i && i % form.per === 0) out.push("<br>");
    else if (i && i % form.group === 0 && !form.isGrid) out.push('<i class="gap"></i>');
    const number = numbers[i];
    let kind = width === 1 ? (number ? "b1" : "b0") : "v";
    if (!number) kind += " z";
    if (changed?.has(i)) kind += " new";
    if (off && !off[i]) kind += " off"; else if (before && before[i] === number) kind += " kept";
    out.push(`<b class="${kind}" data-i="${i}">${spelled(number, width, base)}</b>`);
  }
  return out.join("");
}

/**
 * Shades from the least to the greatest number.
 * @param {any} numbers
 */
export function shadesOf(numbers) {
  const shades = new Uint8Array(numbers.length);
  let low = numbers[0], high = numbers[0];
  for (const each of numbers) { if (each < low) low = each; if (each > high) high = each; }
  const isBig = typeof low === "bigint", span = Number(high - low) || 1;
  for (let i = 0; i < numbers.length; i++) shades[i] = Number(isBig ? numbers[i] - low : numbers[i] - low) * 255 / span;
  return { shades, low, high };
}

const LIGHT = [[237, 243, 242], [150, 196, 194], [52, 120, 128], [13, 56, 70]];
const DARK = [[30, 38, 44], [33, 86, 98], [72, 154, 160], [190, 232, 224]];
/** @type {Map<boolean, Uint32Array>} */
const ramps = new Map();

/**
 * The colours of shades: one hue, from light to dark, and in the dark theme from dark to light.
 * @param {boolean} isDark
 */
export function ramp(isDark) {
  const known = ramps.get(isDark);
  if (known) return known;
  const stops = isDark ? DARK : LIGHT, out = new Uint32Array(256);
  for (let i = 0; i < 256; i++) {
    const at = i / 255 * 3, stop = Math.min(2, Math.floor(at)), part = at - stop;
    const [r, g, b] = [0, 1, 2].map(j => Math.round(stops[stop][j] + (stops[stop + 1][j] - stops[stop][j]) * part));
    out[i] = (0xff000000 | b << 16 | g << 8 | r) >>> 0;
  }
  ramps.set(isDark, out);
  return out;
}

/**
 * A value of many numbers in stretches: of each the greatest, the least and the mean, and what the edit changed.
 * @param {any} value
 */
export function stripOf(value) {
  if (value.isStrip) return value;
  if (value.form) return value.form;
  const { numbers, changed } = value, count = numbers.length, n = Math.min(STRETCHES, count);
  const out = new Uint8Array(3 * n), sums = new Float64Array(n), each = new Uint32Array(n);
  const { shades, low, high } = shadesOf(numbers);
  out.fill(255, n, 2 * n);
  for (let i = 0; i < count; i++) {
    const at = Math.floor(i * n / count), shade = shades[i];
    if (shade > out[at]) out[at] = shade;
    if (shade < out[n + at]) out[n + at] = shade;
    sums[at] += shade;
    each[at]++;
  }
  for (let at = 0; at < n; at++) out[2 * n + at] = sums[at] / each[at];
  const flags = changed && new Set([...changed].map(i => Math.floor(i * n / count)));
  value.form = { low, high, numbers: out, changed: flags, all: count, ones: 0 };
  return value.form;
}

/**
 * What is drawn with on a canvas.
 * @param {HTMLCanvasElement} canvas
 */
const penOf = canvas => /** @type {CanvasRenderingContext2D} */ (canvas.getContext("2d"));

/**
 * From left to right the processors, from below to above the numbers: a band from least to greatest, a line of means,
 * and below them what the edit changed.
 * @param {HTMLCanvasElement} canvas @param {any} strip @param {number} tall
 * @param {{band: string, mean: string, fresh: string}} colours
 */
export function paintStrip(canvas, strip, tall, { band, mean, fresh }) {
  const n = strip.numbers.length / 3, h = Math.max(8, Math.round(tall)), foot = 3, isFlat = strip.low === strip.high;
  const most = strip.numbers.subarray(0, n), least = strip.numbers.subarray(n, 2 * n);
  const means = strip.numbers.subarray(2 * n);
  const y = (/** @type {number} */ shade) => isFlat ? h / 2 : Math.round((h - foot - 2) * (1 - shade / 255));
  canvas.width = n;
  canvas.height = h;
  const context = penOf(canvas);
  context.fillStyle = band;
  for (let x = 0; x < n; x++) context.fillRect(x, y(most[x]), 1, Math.max(2, y(least[x]) - y(most[x]) + 2));
  context.fillStyle = mean;
  for (let x = 0; x < n; x++) {
    const at = y(means[x]), before = x ? y(means[x - 1]) : at;
    context.fillRect(x, Math.min(at, before), 1, Math.max(2, Math.abs(at - before)));
  }
  context.fillStyle = fresh;
  for (const x of strip.changed || []) context.fillRect(x, h - foot, 1, foot);
}

/**
 * A number in few letters: with fewer digits where it is long.
 * @param {string} text
 */
export function short(text) {
  if (text.length <= 12 || /[a-f]/.test(text)) return text;
  const power = [...String(text.length - 1)].map(digit => "⁰¹²³⁴⁵⁶⁷⁸⁹"[Number(digit)]).join("");
  return `${text[0]}.${text.slice(1, 4)}·10${power}`;
}

/**
 * Paints shades into a canvas of `across` pixels a line.
 * @param {HTMLCanvasElement} canvas @param {ArrayLike<number>} shades @param {number} across @param {boolean} isDark
 */
export function paint(canvas, shades, across, isDark) {
  const down = Math.ceil(shades.length / across), colours = ramp(isDark);
  canvas.width = across;
  canvas.height = down;
  const context = penOf(canvas), image = context.createImageData(across, down);
  const words = new Uint32Array(image.data.buffer);
  for (let i = 0; i < shades.length; i++) words[i] = colours[shades[i]];
  context.putImageData(image, 0, 0);
}

/**
 * The pixels that an edit changed, over a picture.
 * @param {HTMLCanvasElement} canvas @param {Set<number>} changed @param {string} colour
 */
export function paintChanged(canvas, changed, colour, size = 1) {
  const context = penOf(canvas);
  context.fillStyle = colour;
  for (const i of changed) context.fillRect(i % canvas.width, Math.floor(i / canvas.width), size, size);
}

/**
 * The coordinates of a processor, axis 0 first.
 * @param {number} processor @param {number[]} axes
 */
export function coordinates(processor, axes) {
  const out = [];
  for (const length of axes) { out.push(processor % length); processor = Math.floor(processor / length); }
  return out;
}

/**
 * A number with a comma at every third digit.
 * @param {number|bigint} number
 */
export const grouped = number => String(number).replace(/\B(?=(\d{3})+$)/g, ",");

/** @type {Object<string, RegExp>} */
const FORMS = { unsigned: /^[0-9]+$/, signed: /^-?[0-9]+$/, hex: /^[0-9a-f]+$/i, bits: /^[01]+$/ };

/**
 * What a cell takes, by the base that is shown.
 * @type {Object<string, string>}
 */
export const WANTED = {
  unsigned: "A whole number without a sign is wanted here. For a negative one, switch the numbers to signed.",
  signed: "A whole number is wanted here.",
  hex: "A number in hex is wanted here: digits and the letters a to f alone.",
  bits: "A number in bits is wanted here: the digits 0 and 1 alone.",
};

/**
 * The number that a text is in a base, or null.
 * @param {string} text @param {number} width @param {string} base
 */
export function numberOf(text, width, base) {
  if (!FORMS[base].test(text)) return null;
  if (base === "hex") return BigInt(`0x${text}`);
  if (base === "bits") return BigInt(`0b${text}`);
  const value = BigInt(text);
  const number = value < 0n ? value + (1n << BigInt(width)) : value;
  return number < 0n ? null : number;
}
