// The server's texts, read: stock, open work, sheets, outboxes and interchanges.

/** @typedef {{item: string, lot: string, quantity: number}} Line */
/**
 * @typedef {{item: string, lot: string, expiry: string, expected: number, onHand: number,
 *   reserved: number, shipped: number}} Row
 */
/** @typedef {{number: string, lines: number, pieces: number, order: string}} OpenAdvice */
/** @typedef {{number: string, lines: number, to: string, short: number}} OpenOrder */
/** @typedef {{number: number, kind: string, state: string}} Sent */
/**
 * @typedef {{who: string, number: number, kind: string, at: Date, act: string, title: string,
 *   into: number, out: number, change: number, rejects: string}} Told
 */

/**
 * The lines of a text that hold something.
 * @param {string} text
 */
function linesOf(text) {
  return text.split("\n").filter((line) => line !== "");
}

/**
 * The rows of a stock export.
 * @param {string} text
 * @returns {Row[]}
 */
function stockRows(text) {
  return linesOf(text).slice(1).map((line) => {
    const [item, lot, expiry, ...amounts] = line.split(",");
    const [expected, onHand, reserved, shipped] = amounts.map(Number);
    return { item, lot, expiry, expected, onHand, reserved, shipped };
  });
}

/**
 * The lines of a sheet of item, lot and quantity; a line of headings is passed over.
 * @param {string} text
 * @returns {Line[]}
 */
function sheetLines(text) {
  return linesOf(text)
    .map((line) => line.split(","))
    .filter((parts) => /^\d+$/.test(parts[2] ?? ""))
    .map(([item, lot, quantity]) => ({ item, lot, quantity: Number(quantity) }));
}

/**
 * The sheet of these lines, as the server takes it.
 * @param {Line[]} lines
 */
function sheetOf(lines) {
  return lines.map(({ item, lot, quantity }) => `${item},${lot},${quantity}\n`).join("");
}

/**
 * What a depositor has open, out of the report of it.
 * @param {string} text
 * @returns {{advices: OpenAdvice[], orders: OpenOrder[]}}
 */
function openWork(text) {
  const advices = [];
  /** @type {any[]} */
  const orders = [];
  let isOrders = false;
  for (const line of linesOf(text).slice(1)) {
    const short = /^ {2}\S+ +\(short\) +(\d+)$/.exec(line);
    const order = /^(\S+) +(\d+) (.*)$/.exec(line);
    const advice = /^(\S+) +(\d+) +(\d+) (\S+)$/.exec(line);
    if (/^order +lines ship to$/.test(line)) isOrders = true;
    else if (isOrders && short) orders.at(-1).short += Number(short[1]);
    else if (isOrders && order) {
      orders.push({ number: order[1], lines: +order[2], to: order[3], short: 0 });
    } else if (advice) {
      const [, number, lines, pieces, of] = advice;
      advices.push({ number, lines: +lines, pieces: +pieces, order: of });
    }
  }
  return { advices, orders };
}

// A line of goods is wholly in columns, so that the name after `TO ` is told from an item TO.
const GOODS = /^([A-Z0-9.-]{1,20}) +([A-Z0-9.-]{1,12}|\(short\)) +(\d{1,6})$/;

/**
 * A picking sheet: where the order goes, what is reserved for it, and what is short.
 * @param {string} text
 */
function pickingSheet(text) {
  const address = [];
  /** @type {Line[]} */
  const lines = [];
  /** @type {Line[]} */
  const short = [];
  for (const line of linesOf(text).slice(1)) {
    const goods = line.length === 40 ? GOODS.exec(line) : null;
    if (goods) {
      const quantity = Number(goods[3]);
      const to = goods[2] === "(short)" ? short : lines;
      to.push({ item: goods[1], lot: goods[2], quantity });
    } else address.push(line.slice(3));
  }
  return { address, lines, short };
}

/**
 * The list of what went out.
 * @param {string} text
 * @returns {Sent[]}
 */
function sentTexts(text) {
  return linesOf(text).map((line) => {
    const [number, kind, state] = line.trim().split(" ");
    return { number: Number(number), kind, state };
  });
}

/**
 * The segments of an interchange, each as its elements: cut at the marks that its ISA has.
 * @param {string} text
 * @returns {string[][]}
 */
function segmentsOf(text) {
  if (!text.startsWith("ISA") || text.length < 106) return [[text]];
  const separator = text[3];
  return text
    .split(text[105])
    .map((segment) => segment.replace(/^[\r\n]+/, ""))
    .filter((segment) => segment !== "")
    .map((segment) => segment.split(separator));
}

/** What the segments are, for people. @type {Record<string, string>} */
const SEGMENT_NAMES = {
  ISA: "interchange begins", IEA: "interchange ends", GS: "group begins", GE: "group ends",
  ST: "set begins", SE: "set ends", TA1: "interchange acknowledged", AK1: "answer to a group",
  AK2: "answer to a set", AK3: "segment in error", AK4: "element in error",
  AK5: "set taken or rejected", AK9: "group taken or rejected", W17: "receipt",
  W07: "counted", W14: "totals of the receipt", W06: "shipment", LX: "line", W12: "shipped",
  W03: "total shipped", W15: "adjustment", W19: "adjusted", N9: "reference",
};

/** What the kinds of texts are. @type {Record<string, string>} */
const KIND_NAMES = {
  944: "goods counted", 945: "goods shipped", 947: "stock recounted",
};

/** What the states of documents are. @type {Record<string, [string, string]>} */
const STATE_NAMES = {
  open: ["warn", "no 997 yet"], accepted: ["good", "accepted"], refused: ["bad", "refused"],
};

/**
 * A text by its segments, each with what it is.
 * @param {string} text
 */
function segmentList(text) {
  const segments = segmentsOf(text);
  const mark = text.startsWith("ISA") ? text[3] : "*";
  const shown = segments.map((elements) => el("li",
    el("code", elements.join(mark)),
    el("span.what", SEGMENT_NAMES[elements[0]] ?? ""),
  ));
  return el("ol.segments", shown);
}

/**
 * A document in words: a title, and lines of cells below headings; what it tells of, and how many
 * pieces came in, went out, or were corrected.
 * @param {string} text
 */
function documentWords(text) {
  const segments = segmentsOf(text);
  const kind = segments.find(([id]) => id === "ST")?.[1] ?? "";
  const words = kind === "944" ? receiptWords : kind === "945" ? shipmentWords
    : kind === "947" ? adjustmentWords : answerWords;
  const none = { act: "", heads: [], rows: [], into: 0, out: 0, change: 0, rejects: "" };
  return { ...none, ...words(segments) };
}

/** @param {string[][]} segments */
function answerWords(segments) {
  const bad = segments.filter(([id, verdict]) => id === "AK5" && verdict !== "A").length;
  const all = segments.filter(([id]) => id === "AK5").length;
  // A group that is rejected as a whole has no AK5.
  const groups = segments.filter(([id, verdict]) => id === "AK9" && verdict === "R").length;
  const rejects = bad ? `${bad} of ${several(all, "set")}` : groups ? several(groups, "group") : "";
  const title = `An answer to what the depositor sent${rejects && `, rejects ${rejects}`}`;
  return { title, rejects };
}

/** @param {string[][]} segments */
function receiptWords(segments) {
  /** @type {any[]} */
  const rows = [];
  let [title, act, into] = ["944", "", 0];
  for (const [id, ...of] of segments) {
    if (id === "W17") {
      title = `944 number ${of[2]}: shipment ${of[4]} of order ${of[3] || "-"}`;
      act = `Count of ${of[4]}`;
    }
    if (id === "W07") rows.push([of[4], "", counted(+of[0])]);
    if (id === "N9") rows.at(-1)[1] = of[1];
    if (id === "W14") {
      title += `, ${counted(+of[0])} of ${counted(+of[1])} announced`;
      into = +of[0];
    }
  }
  return { title, act, heads: ["Item", "Lot", "Received"], rows, into };
}

/** @param {string[][]} segments */
function shipmentWords(segments) {
  /** @type {any[]} */
  const rows = [];
  let [title, act, out] = ["945", "", 0];
  for (const [id, ...of] of segments) {
    if (id === "W06") [title, act] = [`945 number ${of[3]}: order ${of[1]}`, `Pick of ${of[1]}`];
    if (id === "W12") {
      const [, ordered, shipped, short] = of.map(Number);
      const rest = short ? `, ${counted(short)} short` : "";
      rows.push([of[7], "all lots", `${counted(shipped)} of ${counted(ordered)}${rest}`]);
    }
    if (id === "N9") rows.push(["", of[1], counted(+of[2])]);
    if (id === "W03") {
      title += `, ${several(+of[0], "piece")} shipped`;
      out = +of[0];
    }
  }
  return { title, act, heads: ["Item", "Lot", "Shipped"], rows, out };
}

/** @param {string[][]} segments */
function adjustmentWords(segments) {
  /** @type {any[]} */
  const rows = [];
  let [title, change] = ["947", 0];
  for (const [id, ...of] of segments) {
    if (id === "W15") title = `947 number ${of[1]}: stock recounted`;
    if (id === "W19") {
      rows.push([of[5], "", `${+of[1] > 0 ? "+" : ""}${counted(+of[1])}`]);
      change += +of[1];
    }
    if (id === "N9") rows.at(-1)[1] = of[1];
  }
  return { title, act: "Recount", heads: ["Item", "Lot", "Difference"], rows, change };
}

/**
 * What a text tells in a line: its moment is that of its ISA, which is UTC.
 * @param {string} who
 * @param {Sent} sent
 * @param {string} text
 * @returns {Told}
 */
function toldBy(who, { number, kind }, text) {
  const [day = "", time = ""] = segmentsOf(text)[0].slice(9, 11);
  const [year, month, date] = [0, 2, 4].map((at) => +day.slice(at, at + 2));
  const at = new Date(Date.UTC(2000 + year, month - 1, date, +time.slice(0, 2), +time.slice(2)));
  const { act, title, into, out, change, rejects } = documentWords(text);
  return { who, number, kind, at, act, title, into, out, change, rejects };
}

/**
 * A text that went out: in words, and below by its segments.
 * @param {string} text
 */
function documentShown(text) {
  const { title, heads, rows } = documentWords(text);
  return el("div.document",
    el("h3", title),
    rows.length ? el("div.wide", plainTable(heads, rows, [2])) : null,
    el("details", { open: rows.length === 0 },
      el("summary", "As it went out, by segment"), segmentList(text)),
  );
}
