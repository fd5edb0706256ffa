// Before an act is given: what differs, what the server would answer, and a question or two.

/** @typedef {{kind: string, item: string, lot: string, from: string, to: string}} Difference */
/**
 * @typedef {{kind: "count" | "pick" | "recount", who: string, subject: string, lines: Line[],
 *   heads: string[], differences: Difference[], same: string, questions: any[],
 *   done: () => void}} Plan
 */

/** What is worth a second look; else a difference is only told. */
const GRAVE = ["missing", "not announced", "not picked", "below reserved"];

/** Asks for the clerk's initials where there are none; whether there are. */
function hasClerk() {
  if (clerk() !== "") return true;
  const field = byId("clerk");
  field.classList.add("missing");
  byId("clerk-hint").classList.remove("unseen");
  field.focus();
  return false;
}

/**
 * Shows an act before it is given.
 * @param {Plan} plan
 */
function review(plan) {
  if (!hasClerk()) return;
  const dialog = byId("review");
  const ticket = newTicket();
  const body = sheetOf(plan.lines);
  const open = openActLike(plan);
  const tried = el("div.tried");
  const send = button(`Send the ${plan.kind}`, () => sendPlan(plan, ticket, body), {
    class: "main", disabled: true,
  });
  const boxes = plan.questions.filter(Boolean).map((words) => el("label.question",
    el("input", { type: "checkbox", on: { change: () => admit() } }), el("span", words)));
  let isGood = false;
  const admit = () => {
    send.disabled = !isGood || boxes.some((box) => !box.querySelector("input").checked);
  };
  show(dialog, reviewHead(plan, ticket), differenceTable(plan), boxes,
    open ? note("bad", `Ticket ${open.ticket} of the same has no answer yet: wait for it.`) : tried,
    el("p.row.end", button("Back", () => dialog.close()), send));
  dialog.showModal();
  dialog.querySelector("h2").focus();
  if (open) return;
  void tryPlan(plan, ticket, body, tried).then((would) => {
    isGood = would;
    admit();
  });
}

/**
 * @param {Plan} plan
 * @param {string} ticket
 */
function reviewHead(plan, ticket) {
  const pieces = total(plan.lines, (line) => line.quantity);
  const size = `${several(plan.lines.length, "line")}, ${several(pieces, "piece")}`;
  return el("header",
    el("h2", { id: "review-title", tabindex: "-1" }, actWords(plan)),
    el("p.ticket", "Ticket ", el("code", ticket), ` \u00b7 ${size}`));
}

/** @param {Plan} plan */
function differenceTable({ heads, differences, same }) {
  if (differences.length === 0) return note("good", same);
  const rows = differences.map(({ kind, item, lot, from, to }) => [
    [el("b", item), ` ${lot} `, chip(GRAVE.includes(kind) ? "bad" : "warn", kind)], from, to]);
  return el("div.wide", plainTable(["What differs", ...heads], rows, [1, 2]));
}

/**
 * Asks what the act would be answered now; whether it may be sent.
 * @param {Plan} plan
 * @param {string} ticket
 * @param {string} body
 * @param {Element} place
 */
async function tryPlan(plan, ticket, body, place) {
  show(place, hint("Asking the server what it would answer .."));
  try {
    const { status, text } = await post(actPath({ ...plan, ticket }, "try"), body);
    if (isDocument({ status, text })) {
      const words = documentWords(text).title;
      show(place, note("good", el("strong", "The server would take it: "), words));
      return true;
    }
    show(place, refusalNote(status, text));
  } catch (error) {
    show(place, errorNote(error));
  }
  return false;
}

/**
 * Gives the act, and shows in the same place what comes of it.
 * @param {Plan} plan
 * @param {string} ticket
 * @param {string} body
 */
function sendPlan(plan, ticket, body) {
  /** @type {Act} */
  const act = {
    ticket, kind: plan.kind, who: plan.who, subject: plan.subject, body, made: stampOf(new Date()),
    order: Date.now(), tries: 0, state: "open", isTold: true, fault: "", status: 0, text: "",
    answered: "",
  };
  const place = el("div", { role: "status" }, el("p", "Sending .."));
  const close = button("Close", () => byId("review").close());
  // Once this is closed, the answer stands at the top of the page when it comes.
  byId("review").addEventListener("close", () => {
    if (waiters.delete(ticket)) showWaiting();
  }, { once: true });
  show(byId("review"), reviewHead(plan, ticket), place, el("p.row.end", close));
  byId("review").querySelector("h2").focus();
  waiters.set(ticket, (answered) => showOutcome(plan, answered));
  void give(act).then(() => {
    if (act.state === "open") show(place, waitingNote(act, ""));
  });
}

/**
 * @param {Plan} plan
 * @param {Act} act
 */
function showOutcome(plan, act) {
  const dialog = byId("review");
  const isDone = act.status === 200;
  const close = () => {
    dialog.close();
    if (isDone) plan.done();
  };
  const told = isDone
    ? [note("good", el("strong", "Done. "), triesWords(act)), documentShown(act.text)]
    : [refusalNote(act.status, act.text), triesWords(act)];
  const words = isDone ? "Done" : "Back to the lines";
  const after = button(words, close, { class: "main" });
  show(dialog, reviewHead(plan, act.ticket), told, el("p.row.end", after));
  dialog.querySelector("h2").focus();
}
