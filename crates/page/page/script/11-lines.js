// Lines with a field each, found by a scanner; what is typed is kept until the act is done.

/**
 * @typedef {{item: string, lot: string, have: number, expiry?: string, reserved?: number,
 *   isAdded?: boolean}} Field
 */
/** @typedef {{field: Field, isTyped: boolean, quantity: number}} Typed */
/** @typedef {{values: Record<string, string>, added: {item: string, lot: string}[]}} Draft */

const IDENTIFIER = /^[A-Z0-9.-]+$/;
const FASTEST_HAND = 60;
const MOST_FIELDS = 60;

/** @param {{kind: string, who: string, subject: string}} plan */
function draftName({ kind, who, subject }) {
  return `draft.${kind}/${who}/${subject}`;
}

/**
 * @param {{kind: string, who: string, subject: string}} plan
 * @returns {Draft}
 */
function draftOf(plan) {
  try {
    return JSON.parse(kept(draftName(plan)) ?? "") ?? { values: {}, added: [] };
  } catch {
    return { values: {}, added: [] };
  }
}

/** @param {{kind: string, who: string, subject: string}} plan */
function dropDraft(plan) {
  keep(draftName(plan), null);
}

/** @param {{item: string, lot: string}} pair */
function pairName({ item, lot }) {
  return `${item},${lot}`;
}

/**
 * What makes the line of a field once it is shown, since a stock may have thousands.
 * @param {Element} list
 * @param {(field: Field) => {input: any, item: any}} made
 */
function lineMaker(list, made) {
  /** @type {Map<string, {input: any, item: any}>} */
  const rows = new Map();
  const shown = (row) => {
    if (!row.item.isConnected) list.append(row.item);
    return row;
  };
  return {
    rowOf: (field) => {
      const row = rows.get(pairName(field)) ?? made(field);
      rows.set(pairName(field), row);
      return shown(row);
    },
    bad: () => {
      const row = [...rows.values()].find(({ input }) => input.hasAttribute("aria-invalid"));
      return row && shown(row);
    },
  };
}

/**
 * The lines of an act, each with a field, and the bar at the foot; `show` shows the lines whose
 * names pass.
 * @param {{plan: {kind: string, who: string, subject: string}, fields: Field[], have: string,
 *   digits: number, add?: (item: string, lot: string) => Field, told: (typed: number) => string,
 *   look: (lines: Typed[]) => void}} how
 */
function lineFields(how) {
  const { plan, add } = how;
  const draft = draftOf(plan);
  const [list, said, told] = [el("ul.lines"), el("div"), el("p", { role: "status" })];
  const fields = new Map(how.fields.map((field) => [pairName(field), field]));
  if (add) for (const { item, lot } of draft.added) fields.set(`${item},${lot}`, add(item, lot));
  const text = (field) => draft.values[pairName(field)] ?? "";
  const changed = () => {
    keep(draftName(plan), JSON.stringify(draft));
    told.textContent = how.told([...fields.values()].filter((it) => text(it) !== "").length);
  };
  const { rowOf, bad } = lineMaker(list, (it) => fieldRow(it, how, draft, changed, scan));
  const adding = addForm((item, lot) => {
    if (!add || fields.has(`${item},${lot}`)) return;
    show(said);
    draft.added.push({ item, lot });
    fields.set(`${item},${lot}`, add(item, lot));
    changed();
    rowOf(fields.get(`${item},${lot}`)).input.focus();
  });
  const scan = scanner(fields, rowOf, said, (item, lot) => add && adding.ask(item, lot));
  const { field, box } = scanField("Scan or type a lot or an item", scan);
  const look = () => (bad() ? bad()?.input.focus() : how.look([...fields.values()].map((it) => (
    { field: it, isTyped: text(it) !== "", quantity: Number(text(it)) }))));
  changed();
  return {
    box: el("div.card", el("div.tools", box, hint(`\u201c=\u201d takes over what is ${how.have}.`)),
      said, list, add ? adding.box : null),
    bar: el("div.bar", told, button(`Review the ${plan.kind}`, look, { class: "main" })),
    scan: field,
    show: (passes) => {
      list.replaceChildren();
      for (const [name, it] of fields) if (passes(name, text(it))) rowOf(it);
    },
  };
}

/**
 * A line: what it is, what is known of it, a button that takes that over, and the field.
 * @param {Field} field
 * @param {any} how
 * @param {Draft} draft
 * @param {() => void} changed
 * @param {(text: string) => void} scanned
 */
function fieldRow(field, how, draft, changed, scanned) {
  const name = pairName(field);
  const mark = () => {
    const text = draft.values[name] ?? "";
    item.classList.toggle("filled", text !== "");
    item.classList.toggle("differs", text !== "" && Number(text) !== field.have);
  };
  const accept = (text) => {
    if (text === "") delete draft.values[name];
    else draft.values[name] = text;
    mark();
    changed();
  };
  const input = quantityField(field, how.digits, draft.values[name] ?? "", accept, scanned);
  const same = button("=", () => {
    input.value = String(field.have);
    input.dispatchEvent(new Event("input"));
  }, { class: "same", "aria-label": `${how.have} of ${field.item}, lot ${field.lot}` });
  const item = el("li", { class: field.isAdded ? "added" : "" },
    el("div.goods", el("b", field.item), el("span", field.lot)),
    el("div.about", field.isAdded && chip("warn", "not announced"),
      field.reserved ? [chip("", `${counted(field.reserved)} reserved`), " "] : null,
      field.expiry && [el("small", "expires "), expiryShown(field.expiry)]),
    el("div.have", el("small", how.have), ` ${counted(field.have)}`),
    same, input);
  mark();
  return { input, item };
}

/**
 * The field of a quantity. A scanner that types into it means another line: it gets there, and
 * the field keeps the quantity that it had. Keys that come faster than a hand are a scanner's, so
 * that digits in front of what was scanned aren't taken for a quantity.
 * @param {Field} field
 * @param {number} digits
 * @param {string} first
 * @param {(text: string) => void} accept
 * @param {(text: string) => void} scanned
 */
function quantityField({ item, lot }, digits, first, accept, scanned) {
  let [good, before, last] = [first, first, 0];
  const input = el("input", {
    type: "text", inputmode: "numeric", autocomplete: "off", enterkeyhint: "next", value: first,
    "aria-label": `Quantity of ${item}, lot ${lot}`,
  });
  const isQuantity = () => new RegExp(`^\\d{0,${digits}}$`).test(input.value.trim());
  input.addEventListener("input", (event) => {
    if (event.timeStamp - last > FASTEST_HAND) before = good;
    last = event.timeStamp;
    input.toggleAttribute("aria-invalid", !isQuantity());
    if (!isQuantity()) return;
    good = input.value.trim();
    accept(good);
  });
  input.addEventListener("keydown", (event) => {
    if (event.key !== "Enter") return;
    event.preventDefault();
    if (isQuantity()) return byId("view").querySelector(".scan").focus();
    const text = input.value.trim().toUpperCase();
    input.value = before;
    input.dispatchEvent(new Event("input"));
    scanned(text.startsWith(before) ? text.slice(before.length) : text);
  });
  input.addEventListener("focus", () => input.select());
  return input;
}

/**
 * What finds lines by what was scanned: a lot, an item, or both with a blank or a comma between.
 * After an item of several lots the lot is awaited.
 * @param {Map<string, Field>} fields
 * @param {(field: Field) => {input: any, item: any}} rowOf
 * @param {Element} said
 * @param {(item: string, lot: string) => any} unknown
 */
function scanner(fields, rowOf, said, unknown) {
  let awaited = "";
  return (text) => {
    const parts = text.split(/[ ,;]+/);
    const all = [...fields.values()];
    const exact = fields.get(parts.slice(0, 2).join(","));
    const ofItem = all.filter(({ item }) => item === text);
    const ofLot = all.filter(({ item, lot }) => lot === text && (!awaited || item === awaited));
    clearScan(text);
    for (const it of document.querySelectorAll(".found")) it.classList.remove("found");
    show(said);
    const fit = exact ? [exact] : ofLot.length ? ofLot : ofItem;
    const found = fit.slice(0, MOST_FIELDS).map(rowOf);
    if (found.length === 1) {
      awaited = "";
      found[0].item.scrollIntoView({ block: "center" });
      found[0].input.focus();
    } else if (found.length > 1) {
      awaited = ofItem.length ? text : "";
      for (const { item } of found) item.classList.add("found");
      found[0].item.scrollIntoView({ block: "nearest" });
      const next = ofItem.length ? "lot" : "item";
      show(said, note("warn", `${text}: ${found.length} lines. Scan the ${next}.`));
    } else {
      const isLot = awaited !== "" && parts.length === 1;
      const [item, lot = ""] = isLot ? [awaited, text] : parts;
      awaited = "";
      show(said, note("bad", `${text} isn't on this sheet.`));
      unknown(item, lot);
    }
  };
}

/**
 * Empties the scan field, ready for what comes next.
 * @param {string} text
 */
function clearScan(text) {
  const field = byId("view").querySelector(".scan");
  if (!field) return;
  field.value = "";
  field.dispatchEvent(new Event("input"));
  say(text);
  field.focus();
}

/**
 * The form that adds a line that wasn't announced.
 * @param {(item: string, lot: string) => void} added
 */
function addForm(added) {
  const field = (most) => el("input", { ...CAPITALS, type: "text", maxlength: most });
  const [item, lot] = [field(20), field(12)];
  const said = hint();
  const add = (event) => {
    event.preventDefault();
    const [one, other] = [item, lot].map((it) => it.value.trim().toUpperCase());
    if (!IDENTIFIER.test(one) || !IDENTIFIER.test(other)) {
      said.textContent = "An item and a lot have capitals, digits, - and . alone.";
      return;
    }
    said.textContent = item.value = lot.value = "";
    box.open = false;
    added(one, other);
  };
  const form = el("form.tools", { on: { submit: add } }, labelled("Item", item),
    labelled("Lot", lot), el("button", { type: "submit" }, "Add this line"));
  const box = el("details.adding",
    el("summary", "Add a line that wasn't announced"), form, said);
  const ask = (one, other) => {
    box.open = true;
    item.value = one;
    lot.value = other;
    (other ? item : lot).focus();
  };
  return { box, ask };
}

/**
 * What differs, line by line, and how.
 * @param {Typed[]} lines
 * @param {(field: Field, quantity: number) => string} kindOf
 * @returns {Difference[]}
 */
function differencesOf(lines, kindOf) {
  const differing = lines.filter(({ field, quantity }) =>
    field.isAdded || quantity !== field.have);
  return differing.map(({ field, quantity }) => ({
    kind: kindOf(field, quantity), item: field.item, lot: field.lot,
    from: field.isAdded ? "-" : counted(field.have), to: counted(quantity),
  }));
}

/**
 * What is given to the server.
 * @param {Typed[]} lines
 * @returns {Line[]}
 */
function givenBy(lines) {
  return lines.map(({ field: { item, lot }, quantity }) => ({ item, lot, quantity }));
}

/**
 * A sheet's lines as fields, with the dates of their lots, where these can be had.
 * @param {string} who
 * @param {Line[]} lines
 * @returns {Promise<Field[]>}
 */
async function datedFields(who, lines) {
  const rows = await stockOf(who).catch(() => /** @type {Row[]} */ ([]));
  const dates = new Map(rows.map((row) => [pairName(row), row.expiry]));
  return lines.map(({ item, lot, quantity }) => (
    { item, lot, have: quantity, expiry: dates.get(`${item},${lot}`) }));
}

/**
 * The head of an act on one number, with the way back to the list.
 * @param {string} view
 * @param {{who: string, subject: string}} plan
 * @param {Field[]} fields
 * @param {string} have
 * @param {...any} more
 */
function workHead(view, { who, subject }, fields, have, ...more) {
  const pieces = total(fields, (field) => field.have);
  return el("div.head",
    el("div", linkTo([view], "\u2190 All", "back"), el("h1", subject),
      hint(linkTo(["depositor", who], who), ` \u00b7 ${several(fields.length, "line")}, ` +
        `${several(pieces, "piece")} ${have}`)),
    el("div.row", more));
}

/** How far the fields of a sheet are filled. @param {Field[]} fields */
function filledOf(fields) {
  return (typed) => `${typed} of ${several(fields.length, "line")} filled in`;
}
