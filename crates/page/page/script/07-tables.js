// Tables that are sorted by a press on a heading, and what several views show of goods.

/**
 * @typedef {{name: string, value: (row: any) => string | number | null, isNumber?: boolean,
 *   isText?: boolean, cell?: (row: any) => any}} Column
 */

const MOST_ROWS = 200;

/**
 * Compares two values of a column; none comes last.
 * @param {string | number | null} one
 * @param {string | number | null} other
 */
function compared(one, other) {
  if (one === other) return 0;
  if (one === null || one === "") return 1;
  if (other === null || other === "") return -1;
  return one < other ? -1 : 1;
}

/**
 * A table, and `put`, which gives it other rows, of which so many are shown. They are sorted by a
 * column, by none where `by` is -1. `totals` makes the cells of its last line.
 * @param {{label: string, columns: Column[], by?: number, none: string,
 *   totals?: (rows: any[]) => any[], mark?: (row: any) => string}} how
 */
function tableOf({ label, columns, by = 0, none, totals, mark }) {
  const sorted = { by, isDown: false, most: MOST_ROWS };
  /** @type {any[]} */
  let rows = [];
  const box = el("div.table");
  const press = (at) => {
    sorted.isDown = sorted.by === at ? !sorted.isDown : false;
    sorted.by = at;
    render();
  };
  const line = (row) => el("tr", { class: mark ? mark(row) : "" }, columns.map((column) =>
    cellOf(column, column.cell ? column.cell(row) : shownValue(column, row))));
  const foot = (sums) => el("tfoot", el("tr", columns.map((column, at) =>
    cellOf(column, sums[at]))));
  const render = (most = sorted.most) => keepFocus(box, () => {
    if (rows.length === 0) return show(box, hint(none));
    const value = columns[sorted.by]?.value ?? (() => null);
    const sign = sorted.isDown ? -1 : 1;
    const all = [...rows].sort((one, other) => sign * compared(value(one), value(other)));
    const heads = columns.map((column, at) => headOf(column, at, sorted, () => press(at)));
    const left = all.length - most;
    const more = button(`Show more: ${counted(left)} rows are left`, () => {
      sorted.most += 5 * MOST_ROWS;
      render();
    });
    show(box, el("table", { "aria-label": label },
      el("thead", el("tr", heads)),
      el("tbody", all.slice(0, most).map(line)), totals && foot(totals(rows))),
    left > 0 && more);
  });
  const put = (others, most) => {
    rows = others;
    render(most);
  };
  put([]);
  return { box, put };
}

/**
 * Draws a box anew; what has the focus in it has it afterwards.
 * @param {Element} box
 * @param {() => void} draw
 */
function keepFocus(box, draw) {
  const at = document.activeElement;
  const had = box.contains(at) ? at?.textContent : null;
  draw();
  if (had === null) return;
  /** @type {any[]} */
  const all = [...box.querySelectorAll("a, button")];
  all.find((it) => it.textContent === had)?.focus({ preventScroll: true });
}

/**
 * The heading of a column, which sorts by it.
 * @param {Column} column
 * @param {number} at
 * @param {{by: number, isDown: boolean}} sorted
 * @param {() => void} pressed
 */
function headOf({ name, isNumber }, at, { by, isDown }, pressed) {
  const sort = by !== at ? "none" : isDown ? "descending" : "ascending";
  const arrow = el("span.arrow", { "aria-hidden": "true" });
  const pressable = el("button", { type: "button", on: { click: pressed } }, name, arrow);
  return el("th", { scope: "col", class: isNumber ? "number" : "", "aria-sort": sort }, pressable);
}

/**
 * A table that stays as it is: headings, and lines of cells; `numbers` are the columns of numbers.
 * @param {string[]} heads
 * @param {any[][]} rows
 * @param {number[]} numbers
 */
function plainTable(heads, rows, numbers) {
  const kind = (at) => ({ class: numbers.includes(at) ? "number" : "" });
  const head = heads.map((words, at) => el("th", { scope: "col", ...kind(at) }, words));
  const lines = rows.map((cells) => el("tr", cells.map((it, at) => el("td", kind(at), it))));
  return el("table.plain", el("thead", el("tr", head)),
    el("tbody", lines));
}

/**
 * @param {Column} column
 * @param {any} row
 */
function shownValue({ value, isNumber }, row) {
  const shown = value(row);
  return isNumber && typeof shown === "number" ? counted(shown) : shown;
}

/**
 * A cell, with its heading for small screens, where rows are stacked.
 * @param {Column} column
 * @param {any} shown
 */
function cellOf({ name, isNumber, isText }, shown) {
  const kind = isNumber ? "number" : isText ? "" : "word";
  return el("td", { class: kind, "data-name": name }, shown);
}

/** From when on goods aren't expired, and don't expire soon; by the minute. */
const fresh = { at: 0, from: "", after: "" };

/**
 * Whether goods are expired, or expire within 30 days; nothing else. Dates are compared as texts,
 * since a house has many.
 * @param {string} expiry
 */
function freshness(expiry) {
  const now = Math.floor(Date.now() / 60000);
  if (now !== fresh.at) {
    const day = today();
    Object.assign(fresh, { at: now, from: codeOf(day) });
    day.setDate(day.getDate() + 30);
    fresh.after = codeOf(day);
  }
  if (!expiry || expiry > fresh.after) return "";
  return expiry < fresh.from ? "expired" : "soon";
}

/**
 * A date of expiry, marked where it is past or near.
 * @param {string} expiry
 */
function expiryShown(expiry) {
  const kind = freshness(expiry);
  if (kind === "") return dated(expiry);
  const days = daysTo(expiry) ?? 0;
  const near = days === 0 ? "today" : `in ${several(days, "day")}`;
  return [`${dated(expiry)} `, chip(kind === "expired" ? "bad" : "warn",
    kind === "expired" ? "expired" : near)];
}

/**
 * The sum of an amount over rows.
 * @param {any[]} rows
 * @param {(row: any) => number} amount
 */
function total(rows, amount) {
  return rows.reduce((sum, row) => sum + amount(row), 0);
}

/**
 * A figure with its name below.
 * @param {string | number} value
 * @param {string} words
 * @param {string} [kind]
 */
function tile(value, words, kind = "") {
  const shown = typeof value === "number" ? counted(value) : value;
  return el(`div.tile.${kind}`, el("b", shown), el("span", words));
}

/**
 * A part of a view, with its heading.
 * @param {string} title
 * @param {...any} children
 */
function card(title, ...children) {
  return el("section.card", el("h2", title), children);
}

/**
 * A link to a view.
 * @param {string[]} parts
 * @param {any} shown
 * @param {string} [kind]
 */
function linkTo(parts, shown, kind = "") {
  return el("a", { href: `#${parts.join("/")}`, class: kind }, shown);
}
