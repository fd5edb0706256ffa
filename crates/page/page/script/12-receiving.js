// Receiving: the lines of an advice, counted, compared with what was announced, and sent.

/**
 * @param {any} view
 * @param {string} who
 * @param {string} shipment
 */
async function receivingView(view, who, shipment) {
  if (!shipment) {
    return workList(view, "count", {
      title: "Receiving", field: "Scan or type a shipment number",
      none: "No delivery is announced.",
    });
  }
  const sheet = sheetLines(await read("advices", who, shipment, "csv"));
  const fields = await datedFields(who, sheet);
  if (!view.isCurrent()) return;
  /** @type {{kind: "count", who: string, subject: string}} */
  const plan = { kind: "count", who, subject: shipment };
  const lines = lineFields({
    plan, fields, have: "announced", digits: 6, told: filledOf(fields),
    add: (item, lot) => ({ item, lot, have: 0, isAdded: true }),
    look: (typed) => reviewCount(plan, typed),
  });
  show(view.main, workHead("receiving", plan, fields, "announced"), lines.box, lines.bar);
  lines.show(() => true);
  lines.scan.focus();
}

/**
 * @param {{kind: "count", who: string, subject: string}} plan
 * @param {Typed[]} typed
 */
function reviewCount(plan, typed) {
  // A line that was added and left empty isn't meant; one that was announced is, as 0.
  const meant = typed.filter(({ field, isTyped }) => isTyped || !field.isAdded);
  const others = meant.filter(({ field }) => field.isAdded).length;
  const left = meant.filter(({ isTyped }) => !isTyped).length;
  review({
    ...plan, lines: givenBy(meant), heads: ["Announced", "Counted"],
    differences: differencesOf(meant, ({ have, isAdded }, quantity) => (isAdded
      ? "not announced" : quantity === 0 ? "missing" : quantity > have ? "over" : "under")),
    questions: [
      left && `${several(left, "line")} without a quantity: nothing was found, send 0.`,
      others && `${several(others, "line")} that nobody announced: I have compared item and lot ` +
        "with the label.",
    ],
    same: "All is there as it was announced.",
    done: () => {
      location.hash = "receiving";
    },
  });
}
