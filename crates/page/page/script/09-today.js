// Today: what waits, what expires soon, what was refused, what came in and went out.

/**
 * @typedef {{works: Work[], dated: {reserved: number, near: any[]},
 *   outbox: Awaited<ReturnType<typeof outboxOf>>, told: Told[]}} House
 */

const EXPIRY_COLUMNS = [
  { name: "Depositor", value: ({ who }) => who },
  { name: "Item", value: ({ item }) => item },
  { name: "Lot", value: ({ lot }) => lot },
  { name: "Expires", value: ({ expiry }) => expiry, cell: ({ expiry }) => expiryShown(expiry) },
  { name: "On hand", value: ({ onHand }) => onHand, isNumber: true },
  { name: "Reserved", value: ({ reserved }) => reserved, isNumber: true },
];

/** @type {Column[]} */
const ACT_COLUMNS = [
  { name: "When", value: ({ made }) => made },
  { name: "Act", value: ({ words }) => words, isText: true },
  {
    name: "Answer", value: ({ outcome }) => outcome, isText: true,
    cell: ({ kind: [kind, word], outcome }) => [chip(kind, word), ` ${outcome}`],
  },
  { name: "Ticket", value: ({ ticket }) => ticket, cell: ({ ticket }) => el("code", ticket) },
];
const MOST_ACTS = 20;

/**
 * @param {Act} act
 * @returns {[string, string]}
 */
function outcomeChip({ state, status }) {
  if (state !== "done") return ["warn", "open"];
  return status === 200 ? ["good", "done"] : ["bad", "refused"];
}

/**
 * The last acts, newest first: those of this device, and today's of others by what went out.
 * @param {Told[]} told
 */
function lastActs(told) {
  const mine = keptActs().map((act) => ({
    made: act.made, order: act.order, words: actWords(act), outcome: outcomeWords(act),
    ticket: act.ticket, kind: outcomeChip(act), text: `${act.who}: ${outcomeWords(act)}`,
  }));
  const known = new Set(mine.map(({ text }) => text));
  const others = told.filter(({ act, who, title }) => act && !known.has(`${who}: ${title}`));
  const theirs = others.map(({ at, act, who, title }) => ({
    made: stampOf(at), order: at.getTime(), words: `${act} for ${who}`, outcome: title, ticket: "",
    kind: ["good", "done"],
  }));
  return [...mine, ...theirs].sort((one, other) => other.order - one.order).slice(0, MOST_ACTS);
}

/**
 * The figures at the top, the bar of what waits, and that of what was done today.
 * @param {House[]} all
 */
function todayFigures(all) {
  const works = all.flatMap((it) => it.works);
  const counts = works.filter(({ kind }) => kind === "count");
  const picks = works.filter(({ kind }) => kind === "pick");
  const near = all.flatMap((it) => it.dated.near);
  const expired = near.filter(({ expiry }) => freshness(expiry) === "expired").length;
  const soon = near.length - expired;
  const told = all.flatMap((it) => it.told);
  const change = total(told, (it) => it.change);
  return [
    el("div.tiles",
      tile(counts.length, counts.length === 1 ? "delivery to count" : "deliveries to count"),
      tile(picks.length, picks.length === 1 ? "order to pick" : "orders to pick"),
      tile(soon, "lots expire within 30 days", soon ? "warn" : ""),
      tile(expired, expired === 1 ? "lot has expired" : "lots have expired", expired ? "bad" : "")),
    flowBar("What waits", [
      ["coming", total(counts, (work) => work.pieces), "to come in"],
      ["going", total(all, (it) => it.dated.reserved), "reserved to go out"],
      ["short", total(picks, (work) => work.short), "short"],
    ]),
    flowBar("Today so far", [
      ["coming", total(told, (it) => it.into), "came in"],
      ["going", total(told, (it) => it.out), "went out"],
    ], change ? `${change > 0 ? "+" : ""}${counted(change)} by recounts` : ""),
  ];
}

/**
 * What depositors refused, and what of theirs was rejected today.
 * @param {House[]} all
 */
function refusedCard(all) {
  const documents = all.flatMap((it) => it.outbox.refused).map(({ who, number, kind }) => el("li",
    linkTo(["depositor", who], who), ` refused ${kind} number ${number}: call them.`));
  const sets = all.flatMap((it) => it.told).filter(({ rejects }) => rejects);
  const told = sets.map(({ who, number, rejects }) => el("li", linkTo(["depositor", who], who),
    `: answer ${number} of today rejects ${rejects}: tell them.`));
  const lines = [...documents, ...told];
  const more = lines.length - MOST_ACTS;
  return lines.length > 0 && card("Refused", el("ul.refused", lines.slice(0, MOST_ACTS)),
    more > 0 && hint(`${several(more, "other")}.`));
}

/** The parts of the view, and what draws them out of what is known of the house. */
function todayParts() {
  /** @type {Map<string, House>} */
  const house = new Map();
  const [top, refused] = [el("div.card"), el("div")];
  const progress = el("progress", { "aria-label": "Reading the house" });
  const open = tableOf({ label: "Open work", columns: WORK_COLUMNS, none: "Nothing waits." });
  const near = tableOf({
    label: "Expired, or expiring within 30 days", columns: EXPIRY_COLUMNS, by: 3,
    none: "Nothing on hand expires within 30 days.", mark: ({ expiry }) => freshness(expiry),
  });
  const acts = tableOf({ label: "Acts", columns: ACT_COLUMNS, by: -1, none: "No act today." });
  const all = () => [...house.values()];
  const figures = () => {
    show(top, todayFigures(all()));
    show(refused, refusedCard(all()));
  };
  // What each round of reading changes; of long tables the first rows, until all is read.
  const draws = [
    (most) => open.put(all().flatMap((it) => it.works), most),
    (most) => near.put(all().flatMap((it) => it.dated.near), most),
    () => acts.put(lastActs(all().flatMap((it) => it.told))),
  ];
  const draw = (at, most) => {
    figures();
    draws[at](most);
  };
  return { house, top, refused, progress, open, near, acts, draw };
}

/** @param {any} view */
async function todayView(view) {
  const parts = todayParts();
  const { top, refused, progress, open, near, acts, draw } = parts;
  /** @type {Intl.DateTimeFormatOptions} */
  const named = { weekday: "long", day: "numeric", month: "long" };
  const day = today().toLocaleDateString("en-GB", named);
  for (const at of [0, 1, 2]) draw(at);
  show(view.main, el("h1", "Today ", el("small", day), progress), top, refused,
    el("div.columns.late", card("Open work", open.box), el("div",
      card("Expired, or expiring within 30 days", near.box), card("Last acts", acts.box))));
  anew(view, parts, await gather(view, parts, ""));
}

/** A depositor of whom nothing was read yet. @returns {House} */
function unread() {
  const outbox = { length: 0, refused: [], newest: [] };
  return { works: [], dated: { reserved: 0, near: [] }, outbox, told: [] };
}

/**
 * The rounds of reading, each of all depositors: open work, then stock, then what went out today.
 * Nothing is read that is as it was.
 * @param {string} book
 * @returns {((who: string, it: House) => Promise<void>)[]}
 */
function roundsOf(book) {
  return [
    async (who, it) => {
      it.outbox = await reading(`outbox/${who}`, book, 0, () => outboxOf(who));
      it.works = await reading(`open/${who}`, book, it.outbox.length, () => workOf(who));
    },
    async (who, it) => {
      const name = `dated/${who}/${codeOf(today())}`;
      it.dated = await reading(name, book, it.outbox.length, () => datedOf(who));
    },
    async (who, it) => {
      it.told = await toldToday(who, it.outbox.newest);
    },
  ];
}

/**
 * Reads the house, and draws as it comes; gives how far the book went.
 * @param {any} view
 * @param {ReturnType<typeof todayParts>} parts
 * @param {string} before
 */
async function gather(view, { house, progress, draw }, before) {
  const [book, names] = await Promise.all([bookState(), depositors()]);
  if (book && book === before) return book;
  for (const who of names) house.set(who, house.get(who) ?? unread());
  Object.assign(progress, { max: 3 * names.length, value: 0, hidden: false });
  let done = 0;
  for (const [at, round] of roundsOf(book).entries()) {
    /** @type {number | undefined} */
    let most = 20;
    const drawn = () => {
      progress.value = done;
      if (view.isCurrent()) draw(at, most);
    };
    const some = nowAndThen(drawn);
    await askEach(view, names, async (who) => {
      await round(who, house.get(who) ?? unread());
      done += 1;
      some();
    });
    most = undefined;
    drawn();
  }
  progress.hidden = true;
  return book;
}

/**
 * Reads the house again each minute, as long as this view is shown and looked at.
 * @param {any} view
 * @param {ReturnType<typeof todayParts>} parts
 * @param {string} book
 */
function anew(view, parts, book) {
  setTimeout(async () => {
    if (!view.isCurrent()) return;
    const now = document.hidden ? book : await gather(view, parts, book).catch(() => "");
    anew(view, parts, now);
  }, 60000);
}
