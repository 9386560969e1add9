// ---- The grammar: which lines may stand in a statement. The table is that of docs/formats.md.

class NoRecord extends Error {}

function demand(holds) {
  if (!holds) throw new NoRecord();
}

const ONE_SPELLING = /^(?:0|-?[1-9][0-9]{0,38})$/;

// A reader of a whole number of any size, from low to high.
function large(low, high) {
  return (word) => {
    demand(ONE_SPELLING.test(word));
    const number = BigInt(word);
    demand(number >= low && number <= high);
    return number;
  };
}

// A reader of a whole number that a double holds exactly.
function small(low, high) {
  return (word) => {
    demand(word.length <= 16 && ONE_SPELLING.test(word));
    const number = Number(word);
    demand(number >= low && number <= high);
    return number;
  };
}

const matching = (pattern) => (word) => {
  demand(pattern.test(word));
  return word;
};
const among = (...choices) => matching(new RegExp(`^(?:${choices.join("|")})$`));

function divisorOf(one, other) {
  let [left, right] = [one < 0n ? -one : one, other < 0n ? -other : other];
  while (right > 0n) [left, right] = [right, left % right];
  return left;
}

const TOP = large(-(10n ** 18n), 10n ** 18n);
const BOTTOM = large(1n, 1000n);

// A reader of N/D in lowest terms.
function ratio(word) {
  const [top, bottom, ...more] = word.split("/");
  demand(bottom !== undefined && more.length === 0);
  const found = { top: TOP(top), bottom: BOTTOM(bottom) };
  demand(divisorOf(found.top, found.bottom) === 1n);
  return found;
}

// A record of these fields and no others.
const fields = (...readers) => (words) => {
  demand(words.length === readers.length);
  return readers.map((read, place) => read(words[place]));
};

// A record of these fields, of which the last stands 1 to 32 times.
const repeating = (...readers) => (words) => {
  const first = readers.length - 1;
  demand(words.length > first && words.length <= first + 32);
  const front = fields(...readers.slice(0, first))(words.slice(0, first));
  return [...front, words.slice(first).map(readers[first])];
};

const NAME = matching(/^[A-Za-z0-9_.-]{1,32}$/);
const PLACE = matching(/^[A-Za-z0-9_.-]{1,256}$/);
const BITS = matching(/^[01]{1,200}$/);
const [BIDDER, GOOD, NODE, FILE] = [small(0, 39), small(0, 31), small(0, 199), small(1, 21)];
const VALUE = small(-1e9, 1e9);
const TOTAL = small(-4e14, 4e14);
const REGRET = small(0, 4e14);
const MULTIPLIER = large(-(2n ** 56n), 2n ** 56n);
const AMOUNT = (word) => {
  demand(word !== "0");
  return small(-(2 ** 20), 2 ** 20)(word);
};
const VIOLATION = large(0n, 2n ** 100n);
const SCALE = large(1n, 2n ** 32n);
const NUMERATOR = large(0n, 2n ** 62n);
const WIDE = large(-(2n ** 127n), 2n ** 127n - 1n);
const LEAF = fields(GOOD, small(1, 1000), VALUE, VALUE);
const COUNT = small(0, 200);

// A count, and so many pairs, the first numbers of which ascend.
const pairs = (counts, first, second) => (words) => {
  demand(words.length > 0 && words.length === 1 + 2 * counts(words[0]));
  let last = -1;
  for (let place = 1; place < words.length; place += 2) {
    const number = first(words[place]);
    demand(number > last);
    second(words[place + 1]);
    last = number;
  }
  return [];
};

const nodeAmounts = pairs(small(1, 200), NODE, AMOUNT);

// A bidder, and amounts of its nodes.
function amountsFields(words) {
  demand(words.length > 0);
  return [BIDDER(words[0]), ...nodeAmounts(words.slice(1))];
}

const SETTINGS = [small(0, 100), small(0, 1e12), small(1, 1e9), small(0, 1e9), small(0, 20),
  small(0, 50000), small(1, 2000)];

// Six numbers, or seven.
function settingsFields(words) {
  demand(words.length >= 6);
  return fields(...SETTINGS.slice(0, words.length))(words);
}

// A name, K and K lower values, L and L upper ones.
function submitFields(words) {
  demand(words.length >= 3);
  const [name, middle] = [NAME(words[0]), 2 + COUNT(words[1])];
  demand(words.length > middle && words.length === middle + 1 + COUNT(words[middle]));
  return [name, words.slice(2, middle).map(VALUE), words.slice(middle + 1).map(VALUE)];
}

const END_WORDS = ["assign", "exchange", "prices", "regret", "closed", "open", "spent", "limit"];
const RECORDS = new Map([
  ["ice 1", fields(among("assign", "regret", "session", "exchange", "prices"))],
  ["ice 2", fields(among("regret", "session"))],
  ["settings", settingsFields],
  ["good", fields(NAME)],
  ["exact", fields(NAME)],
  ["bidder", repeating(NAME, small(0, 1e6))],
  ["node choose", fields(NODE, NODE, NODE, VALUE, VALUE)],
  ["node buy", LEAF],
  ["node sell", LEAF],
  ["assign", fields()],
  ["settle", fields(small(0, 20))],
  ["final", fields(TOTAL)],
  ["rival", fields(TOTAL)],
  ["provisional", fields(TOTAL)],
  ["without", fields(BIDDER, TOTAL)],
  ["set", fields(BITS)],
  ["branch", fields(BIDDER, NODE)],
  ["leaf", repeating(MULTIPLIER)],
  ["near", pairs(small(0, 32), GOOD, MULTIPLIER)],
  ["derive", fields(small(-(2 ** 40), 2 ** 40))],
  ["amounts", amountsFields],
  ["tolled", pairs(small(0, 300), small(0, 2031), large(-(2n ** 62n), 2n ** 62n))],
  ["dead", fields(BIDDER)],
  ["regret", fields(REGRET)],
  ["prices", repeating(SCALE, NUMERATOR)],
  ["accuracy", fields(VIOLATION, SCALE)],
  ["balance", fields(SCALE)],
  ["row", fields(BIDDER, SCALE, BITS)],
  ["submit", submitFields],
  ["verdict accepted", fields()],
  ["verdict 40", fields(NODE)],
  ["verdict 41", fields(NODE)],
  ...[42, 43, 44, 45, 46].map((number) => [`verdict ${number}`, fields()]),
  ["threshold", fields(ratio, ratio)],
  ["payment", fields(NAME, small(0, 1e15), ratio, ratio)],
  ["spent", fields(TOTAL, WIDE)],
  ["limit", fields(among("accuracy", "balance"), among("wide", "pivots", "rows", "den"), VIOLATION,
    SCALE)],
  ["pool", fields(BIDDER, BITS)],
  ["refused", fields(FILE, small(1, 99), PLACE)],
  ["unread", fields(FILE)],
  // The lines of a statement that are no records of a journal, but for the other ends.
  ["statement", fields(NAME)],
  ["kept", fields(BITS)],
  ["offered", fields(BITS)],
  ["end", fields(among(...END_WORDS, "statement"))],
]);
const PRINTED = /^[ -~]*$/;

// The record that a line is: its form, such as `node buy`, and its fields.
function recordOf(line) {
  demand(PRINTED.test(line));
  const words = line.split(" ");
  const count = RECORDS.has(words[0]) ? 1 : 2;
  const form = words.slice(0, count).join(" ");
  demand(RECORDS.has(form));
  return { form, fields: RECORDS.get(form)(words.slice(count)) };
}
