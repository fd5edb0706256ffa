// Picking: the sheet of an order, to print and to fill in.

/**
 * @param {any} view
 * @param {string} who
 * @param {string} order
 */
async function pickingView(view, who, order) {
  if (!order) {
    return workList(view, "pick", {
      title: "Picking", field: "Scan or type an order number", none: "No order waits.",
    });
  }
  const sheet = pickingSheet(await read("orders", who, order));
  const fields = await datedFields(who, sheet.lines);
  if (!view.isCurrent()) return;
  /** @type {{kind: "pick", who: string, subject: string}} */
  const plan = { kind: "pick", who, subject: order };
  const lines = lineFields({
    plan, fields, have: "to pick", digits: 6, told: filledOf(fields),
    look: (typed) => reviewPick(plan, typed),
  });
  show(view.main, workHead("picking", plan, fields, "to pick",
    button("Print the sheet", () => window.print())),
  el("div.columns.wide-first", lines.box,
    el("div", addressCard(sheet.address), shortCard(sheet.short))), lines.bar);
  lines.show(() => true);
  printSheet(plan, sheet, fields);
  lines.scan.focus();
}

/** @param {string[]} address */
function addressCard(address) {
  const lines = address.map((line) => el("span.line", line));
  return card("Ship to", address.length ? el("address", lines)
    : hint("The order names no address."));
}

/** @param {Line[]} short */
function shortCard(short) {
  if (short.length === 0) return null;
  const rows = short.map(({ item, quantity }) => el("li", el("b", item), " ",
    chip("bad", several(quantity, "piece"))));
  return card("Short", hint(
    "Ordered, and not reserved: leave these out, the 945 says so."),
  el("ul.short", rows));
}

/**
 * @param {{kind: "pick", who: string, subject: string}} plan
 * @param {Typed[]} typed
 */
function reviewPick(plan, typed) {
  const picked = typed.filter(({ quantity }) => quantity > 0);
  const left = typed.filter(({ isTyped }) => !isTyped).length;
  const none = "Nothing is shipped: the order closes, and what it has reserved is free again.";
  const some = `${several(left, "line")} without a quantity: not shipped, and free again.`;
  review({
    ...plan, lines: givenBy(picked), heads: ["To pick", "Picked"],
    differences: differencesOf(typed, ({ have }, quantity) => (
      quantity === 0 ? "not picked" : quantity > have ? "over" : "short")),
    questions: [picked.length === 0 ? none : left && some],
    same: "All is picked as the sheet says.",
    done: () => {
      location.hash = "picking";
    },
  });
}

/**
 * The sheet for the printer, which shows it alone.
 * @param {{who: string, subject: string}} plan
 * @param {{address: string[], short: Line[]}} sheet
 * @param {Field[]} fields
 */
function printSheet({ who, subject }, { address, short }, fields) {
  const pieces = total(fields, (field) => field.have);
  const sums = [several(fields.length, "line"), "", "", "", counted(pieces), ""];
  show(byId("sheet"),
    el("header",
      el("div", el("p", `Picking sheet \u00b7 ${who}`), el("h1", subject),
        barcode(subject, 0.3, 14)),
      el("address", el("small", "Ship to"),
        (address.length ? address : ["-"]).map((it) => el("span.line", it)))),
    plainTable(["", "Item", "Lot", "Expires", "Quantity", "Picked"],
      [...fields.map(printLine), sums], [4]),
    short.length ? el("p", el("b", "Short: "),
      short.map(({ item, quantity }) => `${item} ${counted(quantity)}`).join(", ")) : null,
    el("footer", ["Picked by", "Checked by", "Date, time"].map((words) => el("p", words))),
    el("p.printed", `Printed ${stampOf(new Date())}`));
}

/**
 * The cells of a line on paper.
 * @param {Field} field
 * @param {number} at
 */
function printLine({ item, lot, have, expiry = "" }, at) {
  return [at + 1, [el("b", item), barcode(item, 0.23, 8)],
    [el("b", lot), barcode(lot, 0.23, 8)],
    [dated(expiry), freshness(expiry) === "expired" && el("b.mark", "EXPIRED")],
    counted(have), ""];
}
