// ---- A file beside a published list, as `page/ice-digest` compares it: a journal, or a statement.

const JOURNAL_HEAD = /^ice [123] (?:assign|regret|session)\n/;
const STATEMENT_HEAD = /^statement ([A-Za-z0-9_.-]{1,32})\n/;
const SETTLE = /^settle ([0-9]{1,2})$/;
const BALANCE = /^balance [0-9]+$/;
const OPEN_END = /^(?:end open|refused [0-9]+ [0-9]+ [A-Za-z0-9_.-]+|unread [0-9]+)$/;
const NO_SETTLEMENT = "-";

// The bytes of a Blob.
async function bytesOf(file, start, end) {
  return new Uint8Array(await file.slice(start, end).arrayBuffer());
}

// The lines that begin with a word, each with its place and that of the line behind it.
function* linesOf(text, ...words) {
  for (let start = 0; start < text.length; ) {
    const newline = text.indexOf("\n", start);
    const end = newline < 0 ? text.length : newline;
    if (words.some((word) => text.startsWith(word, start))) {
      yield { line: text.slice(start, end), start, after: end + 1 };
    }
    start = end + 1;
  }
}

// The place of the first line from here on that is no row of the prices.
function behindRows(text, start) {
  let place = start;
  while (text.startsWith("row ", place)) place = text.indexOf("\n", place) + 1;
  return place;
}

// How many bytes each digest of a journal is of, by its word and its settlement: its fronts, one
// for each round, and the whole where no round is awaited. Null where it is no journal.
function boundOf(text) {
  if (!JOURNAL_HEAD.test(text) || !text.endsWith("\n")) return null;
  const sizes = new Map();
  let last = NO_SETTLEMENT;
  let begun = 0;
  for (const { line, after } of linesOf(text, "settle ", "balance ")) {
    const settle = SETTLE.exec(line);
    if (settle !== null) {
      if (settle[1] !== `${begun}`) return null;
      last = settle[1];
      begun += 1;
    } else if (BALANCE.test(line) && !sizes.has(`front ${last}`)) {
      sizes.set(`front ${last}`, behindRows(text, after));
    }
  }
  const end = text.lastIndexOf("\n", text.length - 2) + 1;
  if (!OPEN_END.test(text.slice(end, -1))) sizes.set(`whole ${last}`, text.length);
  else if (sizes.get(`front ${last}`) !== end) return null;
  return sizes;
}

// The digests of the first bytes of a content, so many in turn, behind a salt.
function digestsOf(content, sizes, salt) {
  const hash = new Sha256().update(salt);
  const found = new Map();
  let place = 0;
  for (const size of [...sizes].sort((one, other) => one - other)) {
    hash.update(content.subarray(place, size));
    place = size;
    found.set(size, hash.digest());
  }
  return found;
}

// Whether a journal keeps each line of a list of rounds, and which rounds have no line there.
function compareJournal(content, text, entries, salt) {
  const sizes = boundOf(text);
  if (sizes === null) return { of: "nothing", fault: "compare.fault.file" };
  const every = new Set([...sizes.values(), content.length]);
  const plain = digestsOf(content, every, new Uint8Array(0));
  const salted = salt === null ? new Map() : digestsOf(content, every, salt);
  const rounds = entries.filter(({ word }) => word !== "statement");
  const found = rounds.map(({ word, settlement, size, digest, isSalted }) => {
    const needsSalt = isSalted && salt === null;
    const own = sizes.get(`${word} ${settlement}`);
    const same = own === size && (isSalted ? salted : plain).get(own) === digest;
    return { word, settlement, same, needsSalt };
  });
  const named = new Set(rounds.map(({ word, settlement }) => `${word} ${settlement}`));
  const unbound = [...sizes.keys()].filter((key) => key.startsWith("front ") && !named.has(key));
  const without = unbound.map((key) => key.slice("front ".length));
  return { of: "journal", digest: plain.get(content.length), rounds: found, without };
}

// Whether a statement, with its salt, is in a list.
function compareStatement(content, text, entries, salt) {
  const settles = [...linesOf(text, "settle ")].map(({ line }) => SETTLE.exec(line));
  const settlement = settles.filter((each) => each !== null).at(-1)?.[1];
  if (settlement === undefined) return { of: "nothing", fault: "compare.fault.file" };
  const digest = new Sha256().update(salt).update(content).digest();
  const own = entries.filter(({ word }) => word === "statement");
  const ofThis = own.filter((entry) => entry.settlement === settlement);
  const same = ofThis.some((entry) => entry.digest === digest);
  return { of: "statement", digest, settlement, same, ofThis: ofThis.length, all: own.length };
}

// What a file has to do with a list, both as they were given.
async function compare({ file, list, salt: typed }) {
  const none = (fault) => ({ of: "nothing", fault });
  if (file.size > MOST_BYTES) return none("fault.61");
  const entries = readList(list);
  if (entries === null) return none("compare.fault.list");
  const salt = typed.trim() === "" ? null : readSalt(typed);
  if (typed.trim() !== "" && salt === null) return none("compare.fault.salt");
  const content = await bytesOf(file, 0, file.size);
  const text = DECODER.decode(content);
  const name = STATEMENT_HEAD.exec(text)?.[1];
  if (name === undefined) return compareJournal(content, text, entries, salt?.bytes ?? null);
  if (salt === null) return none("compare.fault.salt");
  if (salt.name !== null && salt.name !== name) return none("compare.fault.name");
  return compareStatement(content, text, entries, salt.bytes);
}
