"use strict";

// ---- Words in the language that is chosen, and numbers as it writes them.

const WORDS = JSON.parse(document.getElementById("table-of-words").textContent);
const MARKS = { en: { groups: ",", decimals: "." }, de: { groups: ".", decimals: "," } };
// The first language of the reader's that there are words in, or English.
const spoken = (navigator.languages ?? []).map((each) => each.slice(0, 2));
let language = spoken.find((each) => Object.hasOwn(WORDS, each)) ?? "en";

// The words of a key, with values in the place of what stands in braces.
function say(key, values = {}) {
  const found = WORDS[language][key];
  if (found === undefined) throw new Error(`no words ${key}`);
  return found.replace(/\{([a-z]+)\}/g, (_, name) => {
    if (values[name] === undefined) throw new Error(`no ${name} in ${key}`);
    return values[name];
  });
}

const [MINUS, ABOUT, MOST_PLACES] = ["−", "≈", 3];
const inGroups = (digits) => digits.replace(/\B(?=(\d{3})+$)/g, MARKS[language].groups);

// A whole number, its digits in groups of three, with a true minus sign.
function whole(number) {
  const digits = `${number}`;
  return digits.startsWith("-") ? MINUS + inGroups(digits.slice(1)) : inGroups(digits);
}

// A fraction to as many decimal places as it needs, three at most; ≈ stands where it is rounded.
function decimal({ top, bottom }) {
  let places = 0;
  while (places < MOST_PLACES && (top * 10n ** BigInt(places)) % bottom !== 0n) places += 1;
  const scaled = (top < 0n ? -top : top) * 10n ** BigInt(places);
  let rounded = scaled / bottom;
  const twice = 2n * (scaled % bottom);
  if (twice > bottom || (twice === bottom && rounded % 2n === 1n)) rounded += 1n;
  const digits = `${rounded}`.padStart(places + 1, "0");
  const before = inGroups(digits.slice(0, digits.length - places));
  const after = places > 0 ? MARKS[language].decimals + digits.slice(-places) : "";
  const sign = top < 0n && rounded > 0n ? MINUS : "";
  return `${scaled % bottom === 0n ? "" : ABOUT}${sign}${before}${after}`;
}

const fractionOf = (number) => ({ top: BigInt(number), bottom: 1n });

// An amount, with its exact value behind it where that is a fraction.
function amount(number) {
  const { top, bottom } = typeof number === "object" ? number : fractionOf(number);
  const exact = bottom === 1n ? "" : ` (${`${top}`.replace("-", MINUS)}/${bottom})`;
  return decimal({ top, bottom }) + exact;
}

// An amount in a cell, with its exact value in a line of its own.
function amountCell(number) {
  const [about, exact] = amount(number).split(" ");
  return exact === undefined ? about : [about, " ", element("span", { class: "exact" }, exact)];
}

const span = (low, high) => (low === high ? whole(low) : `${whole(low)}..${whole(high)}`);

// What a set buys and sells, such as `buy 2 ham-mon + ver-tue; sell crane`.
function tradeOf(units, goods) {
  const side = (sign) => units
    .map((count, good) => ({ count: sign * count, name: goods[good].name }))
    .filter(({ count }) => count > 0)
    .map(({ count, name }) => (count > 1 ? `${whole(count)} ${name}` : name)).join(" + ");
  const [bought, sold] = [side(1), side(-1)];
  const sides = [];
  if (bought !== "") sides.push(say("trade.buy", { what: bought }));
  if (sold !== "") sides.push(say("trade.sell", { what: sold }));
  return sides.join("; ") || say("trade.none");
}

// Numbers of nodes, such as `nodes 0–2, 5`.
function nodesOf(numbers) {
  const runs = [];
  for (const number of numbers) {
    const last = runs.at(-1);
    if (last !== undefined && last[1] === number - 1) last[1] = number;
    else runs.push([number, number]);
  }
  const list = runs.map(([one, other]) => (one === other ? `${one}` : `${one}–${other}`)).join(", ");
  if (runs.length === 0) return say("nodes.none");
  return say(numbers.length === 1 ? "nodes.one" : "nodes.some", { list });
}

const insideOf = (bits) => [...bits].flatMap((bit, node) => (bit === "1" ? [node] : []));

// A name that somebody else chose, with each character spelled out that isn't plain, and isolated:
// one that is written from the right to the left turns nothing around it.
const [ISOLATE, END_ISOLATE] = ["\u2068", "\u2069"];

function plain(name) {
  const spelled = Array.from(name, (letter) =>
    /[\p{C}\p{Zl}\p{Zp}]|[^\S ]/u.test(letter) ? `\\u{${letter.codePointAt(0).toString(16)}}` : letter);
  const shown = spelled.slice(0, 80).join("") + (spelled.length > 80 ? " .." : "");
  return ISOLATE + shown + END_ISOLATE;
}

// ---- Elements of the page. Text is only ever set as text.

const byId = (id) => document.getElementById(id);

function element(name, attributes = {}, ...parts) {
  const made = document.createElement(name);
  for (const [key, value] of Object.entries(attributes)) {
    if (key.startsWith("on")) made.addEventListener(key.slice(2), value);
    else if (value === true) made.setAttribute(key, "");
    else if (value !== false && value !== null) made.setAttribute(key, value);
  }
  made.append(...parts.filter((part) => part !== null && part !== ""));
  return made;
}

const paragraph = (text, look = null) => element("p", { class: look }, text);

// Says a line that sums up: it stands where it is, so that a reader of the screen tells it at once.
function tell(place, text, look = null) {
  place.className = look === null ? "" : `line ${look}`;
  if (place.textContent !== text) place.textContent = text;
}

// A table in a frame that scrolls by itself. A cell is text, an element, or a list of both.
function table(caption, heads, rows, look = null) {
  const row = ({ cells, look: rowLook = null }) =>
    element("tr", { class: rowLook }, ...cells.map((cell, place) =>
      element(place === 0 ? "th" : "td", place === 0 ? { scope: "row" } : {}, ...[cell].flat())));
  const head = element("tr", {}, ...heads.map((text) => element("th", { scope: "col" }, text)));
  const made = element("table", { class: look }, element("caption", {}, caption),
    element("thead", {}, head), element("tbody", {}, ...rows.map(row)));
  const frame = { class: "wide", role: "region", tabindex: "0", "aria-label": caption };
  return element("div", frame, made);
}

// Numbers at a glance, each with what it is and a note: [name, value, note, look].
function facts(entries) {
  return element("dl", { class: "facts" }, ...entries.map(([name, value, note, look = null]) =>
    element("div", {}, element("dt", {}, name), element("dd", { class: look }, value),
      element("dd", { class: "note" }, note))));
}

// What words mean, one beside the other.
const legend = (...keys) => element("p", { class: "legend" }, ...keys.flatMap((key) =>
  [element("b", {}, say(`word.${key}`)), `: ${say(`mean.${key}`)}. `]));
