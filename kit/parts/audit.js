// ---- The audit of a statement, line by line, and what the statement tells.

const MOST_BYTES = 134217728;
const [MOST_GOODS, MOST_NODES, MOST_DEPTH] = [32, 200, 16];
const MOST_KEPT = 400; // bids that are kept to be shown
const VERDICTS = [...RECORDS.keys()].filter((form) => form.startsWith("verdict "));

function readGoods(lines) {
  const goods = [];
  while (goods.length === 0 || lines.sees("good", "exact")) {
    const { form, fields: [name] } = lines.take("good", "exact");
    const isNew = goods.every((good) => good.name !== name);
    lines.test(isNew && goods.length < MOST_GOODS, "exchange");
    goods.push({ name, exact: form === "exact" });
  }
  return goods;
}

// A node with all below it; its number.
function readNode(lines, told, parent, depth) {
  const { nodes, low, high } = told;
  const { form, fields: numbers } = lines.take("node choose", "node buy", "node sell");
  const [least, most] = numbers.slice(-2);
  lines.test(nodes.length < MOST_NODES && depth <= MOST_DEPTH && least <= most, "exchange");
  const node = { kind: form.slice(5), first: numbers[0], second: numbers[1], parent, depth };
  const number = nodes.length;
  nodes.push({ ...node, children: [] });
  low.push(least);
  high.push(most);
  if (node.kind !== "choose") {
    lines.test(node.first < told.goods.length, "exchange");
    return number;
  }
  const { children } = nodes[number];
  for (let left = numbers[2]; left > 0; left -= 1) {
    children.push(readNode(lines, told, number, depth + 1));
  }
  const count = children.length;
  lines.test(count > 0 && node.first <= node.second && node.second <= count, "exchange");
  return number;
}

// Whether no satisfied set sells more of a good than is owned.
function sellsWhatIsOwned({ nodes, owned }) {
  return owned.every((amount, good) => {
    const sales = nodes.map(({ kind, first, second }) =>
      kind === "sell" && first === good ? BigInt(second) : kind === "buy" && first === good ?
        -BigInt(second) : 0n);
    return greatestWeight(nodes, sales) <= BigInt(amount);
  });
}

function readBidder(lines, told) {
  const isOwn = !lines.sees("bidder") || lines.view.fields[0] === told.name;
  const { fields: [, owned] } = lines.take("bidder");
  lines.test(isOwn, "order");
  lines.test(owned.length === told.goods.length, "exchange");
  told.owned = owned;
  readNode(lines, told, null, 1);
  lines.test(sellsWhatIsOwned(told), "exchange");
}

function readSet(lines, told, form) {
  const { fields: [bits] } = lines.take(form);
  lines.test(bits.length === told.nodes.length, "count");
  const fault = faultOf(told.nodes, bits);
  lines.test(fault === null, fault);
  return bits;
}

function readPrices(lines, told) {
  const { fields: [denominator, numerators] } = lines.take("prices");
  lines.test(numerators.length === told.goods.length, "order");
  const cap = BigInt(told.settings.cap);
  const isWithin = numerators.every((top) => top <= cap * denominator);
  lines.test(isWithin && numerators.reduce(divisorOf, denominator) === 1n, "prices");
  return { denominator, numerators };
}

function readOwn(lines, told, form) {
  const record = lines.take(form);
  lines.test(record.fields[0] === told.name, "order");
  return record.fields;
}

// The bids of a round, each with the verdict due; the intervals that they leave.
function readRound(lines, told, settlement) {
  const { low, high, prices, offered } = settlement;
  const { improve } = told.settings;
  const offer = new Offer({ nodes: told.nodes, low, high, prices, provisional: offered, improve });
  let accepted = null;
  while (lines.sees("submit")) {
    const [, lower, upper] = readOwn(lines, told, "submit");
    const judged = accepted ? { verdict: "44", node: null } : offer.judge(lower, upper);
    const { form, fields: [node] } = lines.take(...VERDICTS);
    const due = judged.node === null ? judged.verdict : `${judged.verdict} ${judged.node}`;
    const stated = node === undefined ? form.slice(8) : `${form.slice(8)} ${node}`;
    lines.test(stated === due, "verdict");
    if (judged.verdict === "accepted") accepted = { low: lower, high: upper };
    told.bids += 1;
    if (told.bids <= MOST_KEPT) settlement.bids.push({ low: lower, high: upper, ...judged });
  }
  return accepted ?? { low, high };
}

function readClose(lines, told, settlement) {
  const { fields: [cut, surplus] } = lines.take("threshold");
  lines.test(cut.top >= 0n && surplus.top >= 0n, "order");
  const [, vickrey, discount, payment] = readOwn(lines, told, "payment");
  lines.test(vickrey === 0 || settlement.kept.includes("1"), "payment");
  const worth = weightOf(settlement.low.map(BigInt), settlement.kept);
  const rest = cut.bottom * BigInt(vickrey) - cut.top;
  const due = rest > 0n ? rest : 0n; // over the cut's denominator
  const isSame = (stated, top) => stated.top * cut.bottom === top * stated.bottom;
  const isDue = isSame(discount, due) && isSame(payment, cut.bottom * worth - due);
  lines.test(isDue, "payment");
  lines.test(lines.take("end").fields[0] === "statement", "order");
  if (lines.view !== null) throw new Failed(lines.taken + 1, "order");
  told.closing = { cut, surplus, vickrey, discount, payment, worth };
}

// The whole statement; the line of a yes. `told` is filled as far as the tests pass.
function readStatement(lines, told) {
  [told.name] = lines.take("statement").fields;
  const [weight, closeRegret, cap, improve, rounds] = lines.take("settings").fields;
  told.settings = { weight, closeRegret, cap, improve, rounds };
  told.goods = readGoods(lines);
  readBidder(lines, told);
  let bounds = { low: told.low, high: told.high };
  for (let number = 0; ; number += 1) {
    lines.test(lines.take("settle").fields[0] === number, "order");
    const { fields: [regret] } = lines.take("regret");
    const kept = readSet(lines, told, "kept");
    const settlement = { number, regret, kept, ...bounds, offered: null, prices: null, bids: [] };
    if (regret <= closeRegret || number === rounds) {
      told.settlements.push(settlement);
      readClose(lines, told, settlement);
      const { top, bottom } = told.closing.payment;
      return `yes ${top}/${bottom}`;
    }
    settlement.offered = readSet(lines, told, "offered");
    settlement.prices = readPrices(lines, told);
    told.settlements.push(settlement);
    told.isOpen = lines.sees("end") && lines.view.fields[0] === "open";
    bounds = readRound(lines, told, settlement);
  }
}

// The line and the status that `ice audit` has of a file's bytes, and what the statement tells. It
// is open where all tests pass up to `end open`, which stands last and behind the prices.
function audit(content) {
  const told = { name: null, goods: [], nodes: [], low: [], high: [], owned: [], settings: null,
    settlements: [], bids: 0, closing: null, isOpen: false };
  try {
    if (content.length > MOST_BYTES) throw new Refused(61, "-");
    const lines = new Lines(content);
    try {
      return { line: readStatement(lines, told), status: 0, told };
    } catch (failed) {
      if (!(failed instanceof Failed)) throw failed;
      lines.drain();
      told.isOpen &&= failed.rule === "order" && failed.line === lines.read;
      return { line: `no ${failed.line} ${failed.rule}`, status: 3, told };
    }
  } catch (fault) {
    if (!(fault instanceof Refused)) throw fault;
    told.isOpen = false;
    return { line: `refused 1 ${fault.number} ${fault.place}`, status: 2, told };
  }
}
