// What the house has, depositor by depositor, and the lists of open work.

/**
 * @typedef {{who: string, kind: "count" | "pick", number: string, lines: number,
 *   pieces: number | null, about: string, short: number}} Work
 */

const AT_ONCE = 6;
const MOST_TEXTS = 20;

/**
 * What was read, by a name: how far the book went before it was read, and how long the
 * depositor's outbox was. Whatever changes stock, open work or a document makes that list longer,
 * so both say whether a reading still holds.
 * @type {Map<string, {book: string, length: number, value: any}>}
 */
const readings = new Map();

/** How far the book goes, with the day; nothing where the server doesn't say. */
async function bookState() {
  const { status, text } = await ask("/health", {}, WAIT_TO_READ);
  const entries = Number(/^entries (\d+)$/m.exec(text)?.[1] ?? 0);
  // A book with fewer entries than before is another one.
  if (status !== 200 || entries < Number(kept("entries"))) {
    readings.clear();
    keep("old", null);
  }
  keep("entries", String(entries));
  return status === 200 ? text + codeOf(today()) : "";
}

/**
 * What was read before, where it still holds; else what is read now.
 * @template T
 * @param {string} name
 * @param {string} book
 * @param {number} length 0 where it isn't known
 * @param {() => Promise<T>} fetched
 * @returns {Promise<T>}
 */
async function reading(name, book, length, fetched) {
  const before = readings.get(name);
  const holds = before && ((book && before.book === book) || (length && before.length === length));
  const value = holds ? before.value : await fetched();
  readings.set(name, { book, length: length || (holds ? before.length : 0), value });
  return value;
}

/** Who is enrolled. */
async function depositors() {
  return linesOf(await read("depositors"));
}

/** @param {string} who */
async function stockOf(who) {
  return stockRows(await read("stock", who, "csv"));
}

/**
 * What a depositor has open, advices first.
 * @param {string} who
 * @returns {Promise<Work[]>}
 */
async function workOf(who) {
  const { advices, orders } = openWork(await read("open", who));
  /** @type {Work[]} */
  const counts = advices.map(({ number, lines, pieces, order }) => (
    { who, kind: "count", number, lines, pieces, about: `order ${order}`, short: 0 }));
  /** @type {Work[]} */
  const picks = orders.map(({ number, lines, to, short }) => (
    { who, kind: "pick", number, lines, pieces: null, about: to === "-" ? "" : to, short }));
  return [...counts, ...picks];
}

/**
 * Of an outbox: its length, which documents were refused, and the newest texts, newest first.
 * @param {string} who
 */
async function outboxOf(who) {
  const text = await read("outbox", who);
  const refused = [...text.matchAll(/^ *(\d+) (\d+) refused$/gm)].map(([, number, kind]) => (
    { who, number: Number(number), kind }));
  const newest = sentTexts(text.slice(-24 * MOST_TEXTS)).slice(-MOST_TEXTS).reverse();
  return { length: text.length + 1, refused, newest };
}

/**
 * Of a stock: how much is reserved, and what is expired or expires soon.
 * @param {string} who
 */
async function datedOf(who) {
  const rows = await stockOf(who);
  const near = rows.filter(({ onHand, expiry }) => onHand && freshness(expiry));
  const reserved = total(rows, (row) => row.reserved);
  return { reserved, near: near.map((row) => ({ ...row, who })) };
}

/**
 * The newest text of each depositor that is known to be of a day before.
 * @returns {Record<string, number>}
 */
function oldTexts() {
  return JSON.parse(kept("old") ?? "{}");
}

/**
 * What went out to a depositor today, out of its newest texts.
 * @param {string} who
 * @param {Sent[]} newest
 */
async function toldToday(who, newest) {
  /** @type {Told[]} */
  const all = [];
  const old = oldTexts()[who] ?? 0;
  for (const sent of newest.filter(({ number }) => number > old)) {
    const number = String(sent.number);
    const told = await reading(`text/${who}/${number}`, "", 1, async () =>
      toldBy(who, sent, await read("outbox", who, number)));
    if (told.at < today()) {
      keep("old", JSON.stringify({ ...oldTexts(), [who]: sent.number }));
      break;
    }
    all.push(told);
  }
  return all;
}

/**
 * Asks for each depositor, some at a time, as long as the view is shown; the first that goes wrong
 * ends it.
 * @param {any} view
 * @param {string[]} names
 * @param {(who: string) => Promise<void>} each
 */
async function askEach(view, names, each) {
  const left = [...names];
  const worker = async () => {
    for (let who = left.shift(); who && view.isCurrent(); who = left.shift()) await each(who);
  };
  await Promise.all([...Array(AT_ONCE)].map(worker));
}

/** @param {Work} work */
function viewOf({ kind, who, number }) {
  return [kind === "count" ? "receiving" : "picking", who, number];
}

/** The columns of a table of open work. @type {Column[]} */
const WORK_COLUMNS = [
  {
    name: "To do", value: ({ kind }) => kind,
    cell: ({ kind }) => chip(kind === "count" ? "in" : "out", kind === "count" ? "Count" : "Pick"),
  },
  { name: "Depositor", value: ({ who }) => who },
  {
    name: "Number", value: ({ number }) => number,
    cell: (work) => linkTo(viewOf(work), work.number, "open"),
  },
  { name: "Lines", value: ({ lines }) => lines, isNumber: true },
  { name: "Pieces", value: ({ pieces }) => pieces, isNumber: true },
  {
    name: "Short", value: ({ short }) => short || null, isNumber: true,
    cell: ({ short }) => (short ? chip("bad", counted(short)) : ""),
  },
  { name: "Order or name", value: ({ about }) => about, isText: true },
];

/**
 * The head of a view of one depositor, with the choice of another. Where none is chosen yet, the
 * view shows all, and there is no head.
 * @param {any} view
 * @param {string} name
 * @param {string} title
 * @param {string} who
 */
async function depositorHead(view, name, title, who) {
  const names = await depositors();
  const heard = (event) => {
    if (event.target.value) location.hash = `${name}/${event.target.value}`;
  };
  const head = el("div.head", el("h1", title), labelled("Depositor",
    el("select", { on: { change: heard } }, el("option", { value: "" }, "Choose .."),
      names.map((it) => el("option", { selected: it === who }, it)))));
  // The stock of a stranger is a 404 without a word.
  if (who && !names.includes(who)) throw new Refused(404, "20 UnknownDepositor");
  if (who) return head;
  if (names.length === 1) location.replace(`#${name}/${names[0]}`);
  else if (view.isCurrent()) {
    const links = names.map((it) => el("li", linkTo([name, it], it)));
    show(view.main, head, el("ul.names.card", links));
  }
  return null;
}

/** Traits of a field for capitals. */
const CAPITALS = { autocomplete: "off", autocapitalize: "characters", spellcheck: "false" };

/**
 * A field for a scanner, or for typing: what is in it is handed on at Enter.
 * @param {string} words
 * @param {(text: string) => void} entered
 * @param {(text: string) => void} [typed]
 */
function scanField(words, entered, typed) {
  const field = el("input.scan", {
    ...CAPITALS, type: "search", enterkeyhint: "go",
    on: {
      input: () => typed?.(field.value.trim().toUpperCase()),
      keydown: (event) => {
        if (event.key !== "Enter") return;
        event.preventDefault();
        const text = field.value.trim().toUpperCase();
        if (text !== "") entered(text);
      },
    },
  });
  return { field, box: labelled(words, field) };
}

/**
 * The view of what is to be counted, or to be picked: found by a scan, chosen from the list.
 * @param {any} view
 * @param {"count" | "pick"} kind
 * @param {{title: string, field: string, none: string}} words
 */
async function workList(view, kind, words) {
  const [book, names] = await Promise.all([bookState(), depositors()]);
  if (!view.isCurrent()) return;
  /** @type {Map<string, Work[]>} */
  const works = new Map();
  const said = el("div");
  const columns = WORK_COLUMNS.filter(({ name }) =>
    name !== "To do" && name !== (kind === "count" ? "Short" : "Pieces"));
  const table = tableOf({ label: words.title, columns, by: 0, none: words.none });
  const narrowed = (text) => names.flatMap((who) => works.get(who) ?? []).filter((work) =>
    work.kind === kind && `${work.who} ${work.number} ${work.about}`.toUpperCase().includes(text));
  let [isRead, awaited] = [false, ""];
  const go = (text) => {
    if (!isRead) {
      awaited = text;
      return show(said, hint("Reading what is open .."));
    }
    const likely = narrowed(text);
    const found = likely.filter(({ number }) => number === text);
    const [only, another] = found.length ? found : likely;
    if (only && !another) location.hash = viewOf(only).join("/");
    else show(said, note("warn", only ? `${several(likely.length, "depositor")} ` +
      `or numbers fit "${text}": choose below.` : `Nothing open fits "${text}".`));
  };
  const put = () => view.isCurrent() && table.put(narrowed(scan.field.value.trim().toUpperCase()));
  const scan = scanField(words.field, go, nowAndThen(put));
  show(view.main, el("h1", words.title),
    el("div.card", el("div.tools", scan.box), said, table.box));
  scan.field.focus();
  const draw = nowAndThen(put);
  await askEach(view, names, async (who) => {
    works.set(who, await reading(`open/${who}`, book, 0, () => workOf(who)));
    draw();
  });
  put();
  isRead = true;
  if (awaited && view.isCurrent()) go(awaited);
}
