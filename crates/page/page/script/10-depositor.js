// A depositor: its stock, what expires, its open work, and what went out to it.

/** @type {Column[]} */
const STOCK_COLUMNS = [
  { name: "Item", value: ({ item }) => item },
  { name: "Lot", value: ({ lot }) => lot },
  { name: "Expires", value: ({ expiry }) => expiry, cell: ({ expiry }) => expiryShown(expiry) },
  { name: "Expected", value: ({ expected }) => expected, isNumber: true },
  { name: "On hand", value: ({ onHand }) => onHand, isNumber: true },
  { name: "Reserved", value: ({ reserved }) => reserved, isNumber: true },
  { name: "Shipped", value: ({ shipped }) => shipped, isNumber: true },
];
const MOST_SENT = 50;

/** @param {Row[]} rows */
function stockTotals(rows) {
  const items = new Set(rows.map(({ item }) => item)).size;
  const sums = [(row) => row.expected, (row) => row.onHand, (row) => row.reserved,
    (row) => row.shipped].map((amount) => counted(total(rows, amount)));
  return [`${several(items, "item")}, ${several(rows.length, "lot")}`, "", "", ...sums];
}

/**
 * The stock, searched as one types.
 * @param {Row[]} rows
 */
function stockCard(rows) {
  const table = tableOf({
    label: "Stock", columns: STOCK_COLUMNS, none: "Nothing fits.", totals: stockTotals,
    mark: ({ expiry, onHand }) => (onHand ? freshness(expiry) : ""),
  });
  const only = el("input", { type: "checkbox", on: { change: () => narrow() } });
  const narrow = () => {
    const text = scan.field.value.trim().toUpperCase();
    table.put(rows.filter(({ item, lot, onHand, expiry }) => `${item} ${lot}`.includes(text) &&
      (!only.checked || (onHand > 0 && freshness(expiry) !== ""))));
  };
  const scan = scanField("Search item or lot", narrow, nowAndThen(narrow));
  narrow();
  return card("Stock", el("div.tools", scan.box,
    el("label.check", only, " Expired or expiring soon")), table.box);
}

/**
 * What went out, newest first; each text opens by segment.
 * @param {string} who
 * @param {Sent[]} sent
 */
function outboxCard(who, sent) {
  const list = el("ul.outbox");
  const newest = [...sent].reverse();
  const more = el("li", button("Show more", () => render(10 * MOST_SENT)));
  let shown = 0;
  const render = (most) => {
    more.remove();
    fill(list, newest.slice(shown, shown += most).map((it) => sentItem(who, it)));
    if (shown < sent.length) list.append(more);
  };
  render(MOST_SENT);
  const none = hint("Nothing went out yet.");
  return card("Outbox", sent.length ? list : none);
}

/**
 * @param {string} who
 * @param {Sent} sent
 */
function sentItem(who, { number, kind, state }) {
  const place = el("div");
  const name = kind === "ANS" ? "Answer" : `${kind} ${KIND_NAMES[kind] ?? ""}`;
  const opened = async () => {
    if (!details.open || place.childNodes.length) return;
    try {
      show(place, documentShown(await read("outbox", who, String(number))));
    } catch (error) {
      show(place, errorNote(error));
    }
  };
  const details = el("details", { on: { toggle: opened } },
    el("summary", el("b", number), el("span", name),
      stateChip(state)), place);
  return el("li", details);
}

/**
 * The state of a document; an answer has none.
 * @param {string} state
 */
function stateChip(state) {
  const [kind, words] = STATE_NAMES[state] ?? ["", ""];
  return words && chip(kind, words);
}

/**
 * @param {any} view
 * @param {string} who
 */
async function depositorView(view, who) {
  const head = await depositorHead(view, "depositor", who || "Depositor", who);
  if (!head) return;
  const [rows, works, sent] = await Promise.all([
    stockOf(who), workOf(who), read("outbox", who).then(sentTexts),
  ]);
  if (!view.isCurrent()) return;
  const open = tableOf({
    label: "Open work", columns: WORK_COLUMNS.filter(({ name }) => name !== "Depositor"),
    none: "Nothing waits.",
  });
  open.put(works);
  show(view.main, head, depositorTiles(rows, sent),
    el("div.columns", card("On hand by month of expiry", expiryPlot(rows)),
      card("Open work", open.box)),
    stockCard(rows), outboxCard(who, sent));
}

/**
 * @param {Row[]} rows
 * @param {Sent[]} sent
 */
function depositorTiles(rows, sent) {
  const expired = rows.filter(({ expiry, onHand }) => onHand && freshness(expiry) === "expired");
  const refused = sent.filter(({ state }) => state === "refused").length;
  return el("div.tiles.card",
    tile(total(rows, (row) => row.onHand), "pieces on hand"),
    tile(total(rows, (row) => row.reserved), "reserved"),
    tile(total(rows, (row) => row.expected), "expected"),
    tile(total(expired, (row) => row.onHand), "pieces expired", expired.length ? "bad" : ""),
    tile(refused, refused === 1 ? "document refused" : "documents refused",
      refused ? "bad" : ""));
}
