// Acts of the clerk: each has a ticket, and is kept with its lines until its answer came.

/**
 * @typedef {{ticket: string, kind: "count" | "pick" | "recount", who: string, subject: string,
 *   body: string, made: string, order: number, tries: number, state: "open" | "done" | "aside",
 *   isTold: boolean, fault: string, status: number, text: string, answered: string}} Act
 */

const AGAIN_AFTER = 4000;
const MOST_KEPT = 40;
/** Who waits for the answer of a ticket. @type {Map<string, (act: Act) => void>} */
const waiters = new Map();
/** Tickets that are under way now. @type {Set<string>} */
const underWay = new Set();

/** The clerk's initials; nothing where none are given. */
function clerk() {
  return byId("clerk").value;
}

/** Two letters or digits of this browser, so that two devices of a clerk differ. */
function device() {
  const known = kept("device");
  if (known) return known;
  const letters = "ABCDEFGHJKLMNPQRSTUVWXYZ23456789";
  const made = [...crypto.getRandomValues(new Uint8Array(2))].map((byte) => letters[byte % 32]);
  keep("device", made.join(""));
  return made.join("");
}

/** A new ticket: at most 19 of the 20 characters that one may have. */
function newTicket() {
  const number = (Number(kept("number") ?? "0") % 9999) + 1;
  keep("number", String(number));
  return `${clerk()}-${codeOf(new Date()).slice(2)}-${device()}-${number}`;
}

/**
 * What an act is, in words.
 * @param {{kind: string, who: string, subject: string}} act
 */
function actWords({ kind, who, subject }) {
  if (kind === "count") return `Count of ${subject} for ${who}`;
  return kind === "pick" ? `Pick of ${subject} for ${who}` : `Recount for ${who}`;
}

/**
 * The path of an act, or of a trial of it, which changes nothing.
 * @param {{kind: string, who: string, ticket: string, subject: string}} act
 * @param {...string} before
 */
function actPath({ kind, who, ticket, subject }, ...before) {
  const parts = [...before, kind, who, ticket];
  return kind === "recount" ? pathOf(...parts) : pathOf(...parts, subject);
}

/** @param {Act} act */
function keepAct(act) {
  keep(`act.${act.ticket}`, JSON.stringify(act));
}

/** All acts that are kept, in the order in which they were made. @returns {Act[]} */
function keptActs() {
  const acts = [];
  for (const name of keptNames("act.")) {
    try {
      acts.push(JSON.parse(kept(name) ?? ""));
    } catch {
      keep(name, null);
    }
  }
  return acts.sort((one, other) => one.order - other.order);
}

/** @param {string} ticket */
function isAside(ticket) {
  return keptActs().some((act) => act.ticket === ticket && act.state === "aside");
}

/** Forgets the oldest of the acts that are over. */
function forgetOld() {
  const over = keptActs().filter((act) => act.state !== "open" && act.isTold);
  for (const act of over.slice(0, -MOST_KEPT)) keep(`act.${act.ticket}`, null);
}

/**
 * An act of the same subject that has no answer yet.
 * @param {{kind: string, who: string, subject: string}} plan
 */
function openActLike({ kind, who, subject }) {
  const isLike = (act) => act.kind === kind && act.who === who && act.subject === subject;
  return keptActs().find((act) => act.state === "open" && isLike(act));
}

/**
 * Whether a response settles an act: the book's word does. What comes from before the book
 * settles it only at the first try, when nothing can have been done yet.
 * @param {Act} act
 * @param {{status: number, text: string}} got
 */
function settles(act, got) {
  if (isDocument(got)) return true;
  if (got.status < 400 || got.status >= 500) return false;
  return refusalNumber(got.text) >= 20 || act.tries === 1;
}

/**
 * Gives an act to the server, under its ticket.
 * @param {Act} act
 */
async function give(act) {
  if (underWay.has(act.ticket)) return;
  underWay.add(act.ticket);
  act.tries += 1;
  keepAct(act);
  try {
    const got = await post(actPath(act), act.body);
    if (settles(act, got)) settle(act, got);
    else act.fault = refusalWords(got.status, got.text).line.slice(0, 60);
  } catch (error) {
    if (!(error instanceof Lost)) throw error;
    act.fault = "";
  } finally {
    underWay.delete(act.ticket);
    // Somebody may have set it aside meanwhile, which only an answer takes back.
    if (act.state === "done" || !isAside(act.ticket)) keepAct(act);
    showWaiting();
  }
}

/**
 * An act has its answer: whoever waits is told, else it stands at the top of the page.
 * @param {Act} act
 * @param {{status: number, text: string}} got
 */
function settle(act, { status, text }) {
  Object.assign(act, { state: "done", status, text, answered: stampOf(new Date()) });
  const waiter = waiters.get(act.ticket);
  waiters.delete(act.ticket);
  act.isTold = waiter !== undefined;
  if (status === 200) dropDraft(act);
  keepAct(act);
  waiter?.(act);
  say(`${actWords(act)}: ${status === 200 ? "done" : "refused"}`);
  forgetOld();
}

/** Gives acts without an answer again, one after the other, in their order. */
async function giveAgain() {
  for (const act of keptActs()) {
    if (act.state === "open") await give(act);
  }
}

/**
 * What came of an act, in words.
 * @param {Act} act
 */
function outcomeWords(act) {
  if (act.state === "aside") return "set aside without an answer";
  if (act.state === "open") return "no answer yet";
  if (act.status === 200) return documentWords(act.text).title;
  return `refused: ${refusalWords(act.status, act.text).what}`;
}

/**
 * How often an act was given, where that was more than once.
 * @param {Act} act
 */
function triesWords(act) {
  if (act.tries < 2) return "";
  return `Given ${act.tries} times under ticket ${act.ticket}: this is its answer, it counts once.`;
}

/** Shows at the top which acts have no answer, and answers that nobody has seen. */
function showWaiting() {
  const acts = keptActs().filter((act) => act.state === "open" || !act.isTold);
  const shown = acts.filter((act) => !waiters.has(act.ticket) || act.tries > 1 || act.fault);
  const place = byId("waiting");
  place.hidden = shown.length === 0;
  // What is told as before stays as it is: somebody may be about to press one of its buttons.
  const there = new Map([...place.children].map((it) => [it.dataset.told, it]));
  const notes = shown.map((act) => {
    const told = [act.ticket, act.state, act.fault].join(" ");
    const made = there.get(told)
      ?? (act.state === "open" ? waitingAct(act) : answeredNote(act));
    made.dataset.told = told;
    return made;
  });
  const isSame = notes.length === there.size && notes.every((it) => it.isConnected);
  if (!isSame) show(place, notes);
}

/**
 * What is told of an act that has no answer.
 * @param {Act} act
 * @param {string} lead
 * @param {...any} more
 */
function waitingNote({ ticket, fault }, lead, ...more) {
  const why = fault ? `The server has a fault: ${fault}.` : "No answer came.";
  return note("warn", el("strong", lead, why),
    el("p", "It may be done, or not. The page gives it again every few seconds under ticket ",
      el("code", ticket), ", until the answer comes; it counts once."), more);
}

/** @param {Act} act */
function waitingAct(act) {
  const aside = button("Set aside", () => {
    if (aside.dataset.sure) return setAside(act);
    aside.dataset.sure = "yes";
    aside.textContent = "It may have been done. Set aside?";
  });
  return waitingNote(act, `${actWords(act)}: `,
    el("p.row", button("Give it again now", () => void giveAgain()), aside));
}

/** @param {Act} act */
function answeredNote(act) {
  const seen = () => {
    act.isTold = true;
    keepAct(act);
    showWaiting();
    void showView();
  };
  const isDone = act.status === 200;
  return note(isDone ? "good" : "bad",
    el("strong", `${actWords(act)}: the answer came.`),
    el("p", `Ticket ${act.ticket}: ${outcomeWords(act)}. ${triesWords(act)}`),
    isDone ? documentShown(act.text) : refusalNote(act.status, act.text),
    el("p.row", button("Seen", seen)));
}

/** @param {Act} act */
function setAside(act) {
  Object.assign(act, { state: "aside", isTold: true, answered: stampOf(new Date()) });
  keepAct(act);
  waiters.delete(act.ticket);
  showWaiting();
}

/** The clerk's initials are kept, and acts without an answer given again now and then. */
function startActs() {
  const field = byId("clerk");
  field.value = kept("clerk") ?? "";
  field.addEventListener("input", () => {
    field.value = field.value.toUpperCase().replace(/[^A-Z0-9]/g, "").slice(0, 4);
    field.classList.remove("missing");
    byId("clerk-hint").classList.add("unseen");
    keep("clerk", field.value);
  });
  addEventListener("storage", showWaiting);
  const again = async () => {
    await giveAgain().catch(() => {});
    setTimeout(again, AGAIN_AFTER);
  };
  showWaiting();
  void again();
}
