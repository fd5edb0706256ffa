// Recount: what was found beside what the book has on hand.

/**
 * @param {any} view
 * @param {string} who
 */
async function recountView(view, who) {
  const head = await depositorHead(view, "recount", "Recount", who);
  if (!head) return;
  const stock = await stockOf(who);
  if (view.isCurrent()) recountLines(view, who, head, stock);
}

/**
 * The lots, narrowed as one types or scans; those with a quantity stay.
 * @param {any} view
 * @param {string} who
 * @param {Element} head
 * @param {Row[]} stock
 */
function recountLines(view, who, head, stock) {
  /** @type {{kind: "recount", who: string, subject: string}} */
  const plan = { kind: "recount", who, subject: "" };
  const said = el("p.hint", { role: "status" });
  const lines = lineFields({
    plan, have: "on hand", digits: 9, told: (typed) => `${several(typed, "lot")} recounted`,
    fields: stock.map(({ item, lot, onHand, reserved, expiry }) => (
      { item, lot, have: onHand, reserved, expiry })),
    look: (typed) => reviewRecount(plan, typed),
  });
  const narrow = () => {
    const text = lines.scan.value.trim().toUpperCase();
    let fit = 0;
    lines.show((name, typed) => (name.includes(text) && (fit += 1) <= MOST_FIELDS) || typed);
    said.textContent = fit > MOST_FIELDS
      ? `The first ${MOST_FIELDS} of ${several(fit, "lot")}: type more to find others.`
      : `${several(fit, "lot")} fit.`;
  };
  lines.scan.addEventListener("input", narrow);
  narrow();
  lines.box.append(said);
  show(view.main, head, lines.box, lines.bar);
  lines.scan.focus();
}

/**
 * @param {{kind: "recount", who: string, subject: string}} plan
 * @param {Typed[]} all
 */
function reviewRecount(plan, all) {
  const typed = all.filter(({ isTyped }) => isTyped);
  if (typed.length === 0) return say("Give a quantity first");
  const large = typed.filter(({ field: { have }, quantity }) =>
    quantity * 2 < have || quantity > have * 2).length;
  review({
    ...plan, lines: givenBy(typed), heads: ["On hand", "Found"],
    differences: differencesOf(typed, ({ have, reserved = 0 }, quantity) => (
      quantity < reserved ? "below reserved" : quantity > have ? "more" : "less")),
    questions: [
      large && `${several(large, "lot")} more than halved or doubled: I have counted twice.`,
    ],
    same: "Nothing differs from what the book has.",
    done: () => dispatchEvent(new HashChangeEvent("hashchange")),
  });
}
