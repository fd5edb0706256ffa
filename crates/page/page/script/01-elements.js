"use strict";
// Elements, texts and numbers. Whatever comes from the server goes in as text, here alone.

const SVG_SPACE = "http://www.w3.org/2000/svg";
const DAY = 86400000;

/**
 * The element with this id, which the page has.
 * @param {string} id
 * @returns {any}
 */
function byId(id) {
  return document.getElementById(id);
}

/**
 * Gives an element its traits: `on` holds listeners, a boolean switches an attribute, and
 * everything else is an attribute's text.
 * @param {Element} made
 * @param {Record<string, any>} traits
 */
function dress(made, traits) {
  for (const [name, value] of Object.entries(traits)) {
    if (name === "on") {
      for (const [what, heard] of Object.entries(value)) made.addEventListener(what, heard);
    } else if (typeof value === "boolean") {
      made.toggleAttribute(name, value);
    } else if (value !== null && value !== undefined) {
      made.setAttribute(name, String(value));
    }
  }
}

/**
 * Puts children into an element: nodes as they are, all else as text; nothing for null and
 * false.
 * @param {Element} into
 * @param {any[]} children
 */
function fill(into, children) {
  for (const child of children.flat(3)) {
    if (child === null || child === undefined || child === false) continue;
    into.append(child instanceof Node ? child : document.createTextNode(String(child)));
  }
}

/**
 * An element of HTML: its tag with its classes, as `p.row.end`; its traits, where it has any;
 * its children.
 * @param {string} kind
 * @param {...any} rest
 * @returns {any}
 */
function el(kind, ...rest) {
  const [tag, ...classes] = kind.split(".");
  const made = document.createElement(tag);
  if (classes.length) made.className = classes.join(" ");
  if (rest[0]?.constructor === Object) dress(made, rest.shift());
  fill(made, rest);
  return made;
}

/**
 * An element of a drawing.
 * @param {string} tag
 * @param {Record<string, any>} [traits]
 * @param {...any} children
 * @returns {any}
 */
function drawn(tag, traits = {}, ...children) {
  const made = document.createElementNS(SVG_SPACE, tag);
  dress(made, traits);
  fill(made, children);
  return made;
}

/**
 * Puts these children in the place of what an element holds.
 * @param {Element} into
 * @param {...any} children
 */
function show(into, ...children) {
  into.replaceChildren();
  fill(into, children);
}

/**
 * A button with words.
 * @param {string} words
 * @param {() => void} pressed
 * @param {Record<string, any>} [traits]
 */
function button(words, pressed, traits = {}) {
  return el("button", { type: "button", ...traits, on: { click: pressed } }, words);
}

/**
 * A field with its label above it.
 * @param {string} words
 * @param {any} field
 */
function labelled(words, field) {
  return el("label.field", el("span.label", words), field);
}

/**
 * A line in a quieter tone.
 * @param {...any} children
 */
function hint(...children) {
  return el("p.hint", children);
}

/**
 * A note in a box; `kind` is "", "good", "warn" or "bad".
 * @param {string} kind
 * @param {...any} children
 */
function note(kind, ...children) {
  const role = kind === "bad" ? "alert" : "status";
  return el(`div.note.${kind}`, { role }, ...children);
}

/**
 * A short word in a coloured box.
 * @param {string} kind
 * @param {string} words
 */
function chip(kind, words) {
  return el(`span.chip.${kind}`, words);
}

/**
 * Tells a screen reader.
 * @param {string} words
 */
function say(words) {
  byId("said").textContent = words;
}

const WHOLE = new Intl.NumberFormat("en-US");
const COMPACT = new Intl.NumberFormat("en-US", { notation: "compact" });

/**
 * A number as people read it.
 * @param {number} value
 */
function counted(value) {
  return WHOLE.format(value);
}

/**
 * A number of things, in words.
 * @param {number} value
 * @param {string} one
 * @param {string} [many]
 */
function several(value, one, many = `${one}s`) {
  return `${counted(value)} ${value === 1 ? one : many}`;
}

/**
 * Two digits.
 * @param {number} value
 */
function two(value) {
  return String(value).padStart(2, "0");
}

/** Midnight of this day, here. */
function today() {
  const now = new Date();
  return new Date(now.getFullYear(), now.getMonth(), now.getDate());
}

/**
 * The day that CCYYMMDD names.
 * @param {string} text
 */
function dayOf(text) {
  return new Date(+text.slice(0, 4), +text.slice(4, 6) - 1, +text.slice(6, 8));
}

/**
 * CCYYMMDD of a day.
 * @param {Date} day
 */
function codeOf(day) {
  return `${day.getFullYear()}${two(day.getMonth() + 1)}${two(day.getDate())}`;
}

/**
 * CCYYMMDD as a date to read; nothing for nothing.
 * @param {string} text
 */
function dated(text) {
  return text ? `${text.slice(0, 4)}-${text.slice(4, 6)}-${text.slice(6, 8)}` : "";
}

/**
 * How many days from today a date is; none where there is no date.
 * @param {string} text
 */
function daysTo(text) {
  return text ? Math.round((dayOf(text).getTime() - today().getTime()) / DAY) : null;
}

/**
 * A moment, to be shown and kept.
 * @param {Date} now
 */
function stampOf(now) {
  return `${dated(codeOf(now))} ${two(now.getHours())}:${two(now.getMinutes())}`;
}

/**
 * What draws soon, and a few times a second at most, however often it is asked to; less often
 * where drawing takes long.
 * @param {() => void} draw
 */
function nowAndThen(draw) {
  let [timer, next] = [0, 0];
  return () => {
    if (timer) return;
    timer = setTimeout(() => {
      const begun = performance.now();
      draw();
      const ended = performance.now();
      [timer, next] = [0, ended + Math.max(250, 5 * (ended - begun))];
    }, Math.max(0, next - performance.now()));
  };
}

// What this page keeps goes to the browser's store; where there is none, as in some private
// windows, or it is full, it lasts as long as the page.
/** @type {Record<string, string>} */
const spare = {};
/** @type {Record<string, string>} */
const store = (() => {
  try {
    return localStorage;
  } catch {
    return {};
  }
})();

/**
 * What is kept under a name.
 * @param {string} name
 * @returns {string | null}
 */
function kept(name) {
  return spare[`whx12.${name}`] ?? store[`whx12.${name}`] ?? null;
}

/**
 * Keeps a text, or forgets it where it is null.
 * @param {string} name
 * @param {string | null} text
 */
function keep(name, text) {
  const at = `whx12.${name}`;
  delete spare[at];
  if (text === null) return void delete store[at];
  try {
    store[at] = text;
  } catch {
    spare[at] = text;
  }
}

/**
 * The names that begin so under which something is kept.
 * @param {string} beginning
 */
function keptNames(beginning) {
  const names = Object.keys({ ...store, ...spare });
  return names.filter((name) => name.startsWith(`whx12.${beginning}`)).map((name) => name.slice(6));
}
