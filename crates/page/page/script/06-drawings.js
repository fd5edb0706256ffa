// Drawings: Code 128 bars, the bar of pieces in and out, and what expires by month.

// The widths of the bars and blanks of each code, from 0 to 106 (the end, which has seven).
const CODE_WIDTHS = (
  "212222222122222221121223121322131222122213122312132212221213221312231212112232122132" +
  "122231113222123122123221223211221132221231213212223112312131311222321122321221312212" +
  "322112322211212123212321232121111323131123131321112313132113132311211313231113231311" +
  "112133112331132131113123113321133121313121211331231131213113213311213131311123311321" +
  "331121312113312311332111314111221411431111111224111422121124121421141122141221112214" +
  "112412122114122411142112142211241211221114413111241112134111111242121142121241114212" +
  "124112124211411212421112421211212141214121412121111143111341131141114113114311411113" +
  "411311113141114131311141411131211412211214211232"
).match(/.{6}/g) ?? [];
const CODE_END = "2331112";
const START_B = 104;

/**
 * The codes of a text: set B has all that is printed; the last is the sum over all before it.
 * @param {string} text
 */
function code128(text) {
  const codes = [...text].map((letter) => letter.charCodeAt(0) - 32);
  const sum = codes.reduce((all, code, at) => all + code * (at + 1), START_B);
  return [START_B, ...codes, sum % 103];
}

/**
 * The bars of a text, with the text to hear; `module` is the width of the least bar in mm.
 * @param {string} text
 * @param {number} module
 * @param {number} height
 */
function barcode(text, module, height) {
  const widths = code128(text).map((code) => CODE_WIDTHS[code]).join("") + CODE_END;
  let at = 10;
  let path = "";
  [...widths].forEach((width, place) => {
    if (place % 2 === 0) path += `M${at} 0h${width}v1h-${width}z`;
    at += Number(width);
  });
  const size = { width: `${((at + 10) * module).toFixed(2)}mm`, height: `${height}mm` };
  return drawn("svg", {
    ...size, viewBox: `0 0 ${at + 10} 1`, preserveAspectRatio: "none", class: "bars",
    role: "img", "aria-label": `Code 128 of ${text}`,
  }, drawn("path", { d: path }));
}

/**
 * Draws into a box by its width, and again when that changes.
 * @param {Element} box
 * @param {(width: number) => Element} draw
 */
function drawByWidth(box, draw) {
  let last = 0;
  new ResizeObserver(() => {
    const width = Math.round(box.clientWidth);
    if (width === last || width === 0) return;
    last = width;
    show(box, draw(width));
  }).observe(box);
}

/**
 * A bar of pieces, by parts of a kind with its words.
 * @param {string} title
 * @param {[string, number, string][]} parts
 * @param {string} [more]
 */
function flowBar(title, parts, more = "") {
  const all = Math.max(1, total(parts, ([, pieces]) => pieces));
  let at = 0;
  const shapes = parts.map(([kind, pieces]) => {
    const width = (pieces / all) * 1000;
    at += width;
    return drawn("rect", { x: at - width, y: 0, width, height: 10, class: kind });
  });
  const key = parts.map(([kind, pieces, words]) => el(`li.${kind}`, el("b", counted(pieces)),
    ` ${words}`));
  return el("div.flow", el("h3", title), drawn("svg", {
    viewBox: "0 0 1000 10", preserveAspectRatio: "none", "aria-hidden": "true",
  }, shapes), el("ul.key", key, more && el("li.other", more)));
}

/**
 * Pieces on hand by the month in which they expire: expired ones, the next twelve months, later.
 * @param {Row[]} rows
 */
function expiryMonths(rows) {
  const now = today();
  const months = [...Array(12).keys()].map((ahead) => {
    const day = new Date(now.getFullYear(), now.getMonth() + ahead, 1);
    const name = day.toLocaleString("en-US", { month: "short" });
    const year = ahead === 0 || day.getMonth() === 0 ? String(day.getFullYear()) : "";
    return { kind: ahead < 2 ? "soon" : "", name, year, pieces: 0 };
  });
  const before = { kind: "expired", name: "Past", year: "", pieces: 0 };
  const after = { kind: "", name: "Later", year: "", pieces: 0 };
  for (const { expiry, onHand } of rows) {
    if (!expiry || onHand === 0) continue;
    const day = dayOf(expiry);
    const ahead = (day.getFullYear() - now.getFullYear()) * 12 + day.getMonth() - now.getMonth();
    const to = (daysTo(expiry) ?? 0) < 0 ? before : months[ahead] ?? after;
    to.pieces += onHand;
  }
  return [before, ...months, after];
}

/**
 * The plot of what expires by month; nothing where nothing on hand has a date.
 * @param {Row[]} rows
 */
function expiryPlot(rows) {
  const months = expiryMonths(rows);
  const most = Math.max(...months.map(({ pieces }) => pieces));
  if (most === 0) return hint("Nothing on hand has a date.");
  const box = el("div.plot");
  drawByWidth(box, (width) => expiryDrawing(months, most, width));
  return box;
}

/**
 * @param {{kind: string, name: string, year: string, pieces: number}[]} months
 * @param {number} most
 * @param {number} width
 */
function expiryDrawing(months, most, width) {
  const step = width / months.length;
  const isNarrow = step < 34;
  const full = 120;
  const bars = months.map(({ kind, name, year, pieces }, at) => {
    const height = pieces === 0 ? 0 : Math.max(3, (pieces / most) * full);
    const middle = at * step + step / 2;
    const short = isNarrow ? name.slice(0, kind === "expired" ? 3 : 1) : name;
    return [
      drawn("rect", {
        x: at * step + step * 0.16, y: 22 + full - height, width: step * 0.68, height, rx: 2,
        class: kind,
      }, drawn("title", {}, `${name} ${year}: ${several(pieces, "piece")}`)),
      pieces > 0 && !isNarrow &&
        drawn("text", { x: middle, y: 16 + full - height }, COMPACT.format(pieces)),
      drawn("text", { x: middle, y: full + 40 }, short),
      drawn("text", { x: middle, y: full + 56 }, isNarrow ? "" : year),
    ];
  });
  const told = months.filter(({ pieces }) => pieces > 0)
    .map(({ name, year, pieces }) => `${name} ${year} ${counted(pieces)}`);
  const line = drawn("line", { x1: 0, x2: width, y1: 22 + full, y2: 22 + full });
  return drawn("svg", {
    viewBox: `0 0 ${width} 184`, width, height: 184, role: "img",
    "aria-label": `Pieces on hand by month of expiry: ${told.join(", ")}`,
  }, bars, line);
}
