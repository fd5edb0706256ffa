// Requests to the server, and what its refusals mean.

const WAIT_TO_READ = 30000;
const WAIT_TO_ACT = 60000;

/** No answer came: what was asked may be done, or may not. */
class Lost extends Error {}

/** The book says no; or the server turned the request away. */
class Refused extends Error {
  /**
   * @param {number} status
   * @param {string} text
   */
  constructor(status, text) {
    super(text.trim() || `status ${status}`);
    this.status = status;
    this.text = text;
  }
}

/**
 * What refusals mean, and what to do: by the refusal's number.
 * @type {Record<number, [string, string]>}
 */
const REFUSALS = {
  20: ["Nobody is enrolled under this id.", "Choose the depositor from the list."],
  21: [
    "This ticket was given before, with another act or other lines.",
    "See the outbox for what was done, then review again: you get a new ticket.",
  ],
  22: [
    "No advice with this shipment number has passed.",
    "Compare the delivery note. The 943 may not be here, or was rejected.",
  ],
  23: [
    "This advice was counted before.",
    "Recount the lots that differ.",
  ],
  24: [
    "No order with this number has passed.",
    "Compare the number. The 940 may not be here, or was rejected.",
  ],
  25: [
    "This order was picked before, perhaps by someone else just now.",
    "The 945 in the outbox says what was shipped. Don't ship it again.",
  ],
  26: [
    "A line has more of a lot than this order has reserved.",
    "Pick what the sheet shows, from the lots that it shows.",
  ],
  27: [
    "A line names a lot that no count has named.",
    "Look for a typing error. Else name the lot in the next count.",
  ],
  28: [
    "A line sets less than open orders have reserved.",
    "Pick those orders first, with what there is; then recount.",
  ],
  29: ["Every line is what the book has.", "Nothing to do: no 947 goes out."],
  30: [
    "A quantity is too large: over 999,999, in a recount over 999,999,999.",
    "Look for a typing error; count each shipment by itself.",
  ],
  31: ["A lot of an item stands twice.", "Make it one line with the sum."],
  32: [
    "A number, item, lot or quantity can't be read.",
    "Use capitals, digits, - and . alone, and whole numbers.",
  ],
  33: ["Over 999 lines.", "Split it into several acts."],
  34: ["The depositor has used up its numbers.", "Enrol it under a second id."],
};

/** What a status means that isn't the book's. @type {Record<number, [string, string]>} */
const STATUSES = {
  403: [
    "The server turned this page away.",
    "Open it at the clerks' own address, not through another name or page.",
  ],
  503: [
    "The server met a fault.",
    "Look at the server's disk, then at its journal.",
  ],
};

/**
 * The number of a refusal in a response's text; 0 where it has none.
 * @param {string} text
 */
function refusalNumber(text) {
  const found = /^(\d{1,2}) [A-Z][A-Za-z]+/.exec(text);
  return found ? Number(found[1]) : 0;
}

/**
 * Whether a response is the answer to an act. A network may answer 200 with a page of its own.
 * @param {{status: number, text: string}} got
 */
function isDocument({ status, text }) {
  return status === 200 && text.startsWith("ISA");
}

/**
 * A refusal in words: what it means, and what to do.
 * @param {number} status
 * @param {string} text
 */
function refusalWords(status, text) {
  const number = refusalNumber(text);
  const faulty = ["The server answered with something unexpected.", "Tell who keeps the server."];
  const [what, cure] = (status !== 503 && REFUSALS[number]) || STATUSES[status] || faulty;
  return { what, cure, line: text.trim().split("\n")[0] || `status ${status}` };
}

/**
 * The note that tells a refusal.
 * @param {number} status
 * @param {string} text
 */
function refusalNote(status, text) {
  const { what, cure, line } = refusalWords(status, text);
  return note("bad", el("strong", what), el("p", cure), el("p.raw", line));
}

/**
 * The note that tells whatever went wrong with a request.
 * @param {any} error
 */
function errorNote(error) {
  if (error instanceof Refused) return refusalNote(error.status, error.text);
  if (error instanceof Lost) {
    const cure = "Is the server running, and this device in its network?";
    return note("bad", el("strong", "The server doesn't answer."), el("p", cure));
  }
  return note("bad", el("strong", "This can't be done here."), el("p", error.message));
}

/**
 * A path of these parts. A browser takes `.` and `..` out of a path, so it can't ask for a
 * number that is one of them.
 * @param {...string} parts
 */
function pathOf(...parts) {
  for (const part of parts) {
    if (!/^[A-Z0-9.-]+$/i.test(part) || part === "." || part === "..") {
      throw new Error(`A browser can't ask for "${part}". Use the command line for it.`);
    }
  }
  return `/${parts.join("/")}`;
}

/**
 * Asks the server; the response's status and text. Throws `Lost` without a response.
 * @param {string} path
 * @param {RequestInit} how
 * @param {number} patience
 */
async function ask(path, how, patience) {
  const stop = new AbortController();
  const timer = setTimeout(() => stop.abort(), patience);
  try {
    const got = await fetch(path, {
      ...how, cache: "no-store", redirect: "error", signal: stop.signal,
    });
    const text = await got.text();
    showReach(true);
    return { status: got.status, text };
  } catch {
    showReach(false);
    throw new Lost(path);
  } finally {
    clearTimeout(timer);
  }
}

/**
 * The text that the server has at a path of these parts.
 * @param {...string} parts
 */
async function read(...parts) {
  const { status, text } = await ask(pathOf(...parts), {}, WAIT_TO_READ);
  if (status !== 200) throw new Refused(status, text);
  return text;
}

/**
 * Hands a sheet to a path. The type isn't one that a form can have: such are turned away.
 * @param {string} path
 * @param {string} body
 */
function post(path, body) {
  const headers = { "Content-Type": "text/csv" };
  return ask(path, { method: "POST", headers, body }, WAIT_TO_ACT);
}

/**
 * Shows whether the server answers.
 * @param {boolean} isReached
 */
function showReach(isReached) {
  const place = byId("reach");
  const words = isReached ? "Server answers" : "No answer";
  if (place.textContent !== words) show(place, words);
  place.classList.toggle("lost", !isReached);
}
