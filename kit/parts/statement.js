// ---- The page of a bidder, made of its statement.

const unitsIn = (told, bits) => {
  const units = told.goods.map(() => 0);
  told.nodes.forEach(({ kind, first, second }, node) => {
    if (bits[node] === "1" && kind !== "choose") units[first] += kind === "buy" ? second : -second;
  });
  return units;
};
const tradeIn = (told, bits) => tradeOf(unitsIn(told, bits), told.goods);
const quoted = (told, bits) =>
  say("quoted", { trade: tradeIn(told, bits), nodes: nodesOf(insideOf(bits)) });

// What a node trades or chooses.
function nodeWords(told, number) {
  const { kind, first, second, children } = told.nodes[number];
  if (kind !== "choose") {
    const { name } = told.goods[first];
    return say(`node.${kind}`, { what: second > 1 ? `${whole(second)} ${name}` : name });
  }
  const [least, most, count] = [first, second, children.length].map(whole);
  if (first === children.length) return say("node.all", { count });
  if (first === second) return say("node.exactly", { least, count });
  if (first > 0) return say(second < children.length ? "node.between" : "node.least", { least, most, count });
  return say(second < children.length ? "node.most" : "node.any", { most, count });
}

// What a choice stands for where all below it are leaves, such as `all 2: buy a + b`.
function nodeTrade(told, number) {
  const { kind, children } = told.nodes[number];
  const areLeaves = children.every((child) => told.nodes[child].kind !== "choose");
  if (kind !== "choose" || !areLeaves || children.length > 12) return nodeWords(told, number);
  const inside = told.nodes.map((_, node) => (children.includes(node) ? "1" : "0")).join("");
  return `${nodeWords(told, number)}: ${tradeIn(told, inside)}`;
}

// Why a bid was refused; nothing where its numbers don't show it.
function reasonOf(told, settlement, { verdict, node, low, high, first, second }) {
  const { low: oldLow, high: oldHigh, offered } = settlement;
  if (verdict === "40" || verdict === "41") {
    const old = span(oldLow[node], oldHigh[node]);
    return say(`because.${verdict}`, { span: `${whole(low[node])}..${whole(high[node])}`, node, old });
  }
  if (verdict === "42") {
    const trade = quoted(told, first.other);
    const other = first.other === offered ? say("because.42.own", { trade }) : trade;
    const key = first.gap.top === 0n ? "because.42.tie" : "because.42";
    return say(key, { wanted: quoted(told, first.wanted), other, gap: amount(first.gap) });
  }
  if (verdict !== "43") return "";
  const [own, other] = [quoted(told, offered), quoted(told, second.other)];
  const [now, before, most] = [second.now, second.before, second.most].map(amount);
  const wants = second.most.top === 0n ? "because.43.zero" : "because.43.most";
  return `${say("because.43", { own, other, now, before })} ${say(wants, { most })}`;
}

function bidRow(told, settlement, bid) {
  const { low, high, verdict } = bid;
  const isCounted = low.length === told.nodes.length && high.length === told.nodes.length;
  const values = isCounted ? low.flatMap((least, node) => {
    const isNew = least !== settlement.low[node] || high[node] !== settlement.high[node];
    const shown = `${node}: ${span(least, high[node])}`;
    if (least === 0 && high[node] === 0 && !isNew) return [];
    return [element(isNew ? "b" : "span", { class: "value" }, shown), " "];
  }) : [`${low.length}, ${high.length}`];
  const look = verdict === "accepted" ? "good" : "bad";
  const why = reasonOf(told, settlement, bid);
  const says = [element("span", { class: look }, say(`verdict.${verdict}`)), why && `: ${why}`];
  return { cells: [`${settlement.number + 1}`, values, says.filter((part) => part)] };
}

function bidsPart(told) {
  const rows = told.settlements.flatMap((settlement) =>
    settlement.bids.map((bid) => bidRow(told, settlement, bid)));
  if (rows.length === 0) return [element("h3", {}, say("table.bids")), paragraph(say("bids.none"))];
  const heads = ["head.round", "head.values", "head.verdict"].map((key) => say(key));
  const more = told.bids - rows.length;
  return [
    element("h3", {}, say("table.bids")),
    table(say("table.bids"), heads, rows, "told"),
    paragraph(`${say("values.key")} ${say("bids.compare")}`, "soft"),
    more > 0 ? paragraph(say("bids.more", { count: whole(more) })) : null,
    legend("verdict"),
  ];
}

function settlementsPart(told) {
  const heads = ["settlement", "regret", "kept", "offered"].map((key) => say(`head.${key}`));
  const rows = told.settlements.map(({ number, regret, kept, offered }) => ({
    cells: [`${number}`, whole(regret), tradeIn(told, kept),
      offered === null ? "" : tradeIn(told, offered)],
  }));
  return [element("h3", {}, say("table.settlements")),
    table(say("table.settlements"), heads, rows), legend("settlement", "regret", "final", "provisional")];
}

function pricesPart(told) {
  const priced = told.settlements.filter(({ prices }) => prices !== null);
  if (priced.length === 0) return [];
  const heads = [say("head.good"),
    ...priced.map(({ number }) => say("head.price", { settlement: number }))];
  const rows = told.goods.map(({ name }, good) => ({
    cells: [name, ...priced.map(({ prices }) => amountCell(reduced(prices, good)))] }));
  return [element("h3", {}, say("table.prices")), table(say("table.prices"), heads, rows, "prices")];
}

// The price of a good in lowest terms.
function reduced({ denominator, numerators }, good) {
  let [one, other] = [numerators[good], denominator];
  while (other > 0n) [one, other] = [other, one % other];
  return { top: numerators[good] / one, bottom: denominator / one };
}

function treePart(told) {
  const last = told.settlements.at(-1);
  const bits = told.isOpen ? last.offered : last.kept;
  const rows = told.nodes.map(({ depth }, node) => {
    const words = element("span", {}, nodeTrade(told, node));
    words.style.paddingInlineStart = `${0.9 * (depth - 1)}rem`;
    const isIdle = [told.low, told.high, last.low, last.high].every((side) => side[node] === 0);
    const values = isIdle ? ["", ""] :
      [span(told.low[node], told.high[node]), span(last.low[node], last.high[node])];
    return { cells: [`${node}`, words, ...values], look: bits[node] === "1" ? "inside" : null };
  });
  const heads = ["head.node", "head.trades", "head.opening", "head.now"].map((key) => say(key));
  return [element("h3", {}, say("table.tree")), table(say("table.tree"), heads, rows, "tree"),
    paragraph(say("tree.key"), "soft"), legend("bounds")];
}

function closedFacts({ closing, settlements, ...told }) {
  const { kept, number } = settlements.at(-1);
  const { cut, surplus, vickrey, discount, payment, worth } = closing;
  const isPaid = payment.top < 0n;
  const size = { top: isPaid ? -payment.top : payment.top, bottom: payment.bottom };
  const way = isPaid ? "receive" : "pay";
  return [
    [say("fact.state"), say("fact.closed"), say("fact.closed.note", { rounds: number })],
    [say("fact.get"), tradeIn(told, kept), say("fact.get.note")],
    [say(`fact.${way}`), amount(size), say(`fact.${way}.note`)],
    [say("fact.worth"), amount(worth), say("fact.worth.note")],
    [say("fact.vickrey"), whole(vickrey), say("fact.vickrey.note")],
    [say("fact.cut"), amount(cut), say("mean.cut")],
    [say("fact.discount"), amount(discount), say("fact.discount.note")],
    [say("fact.surplus"), amount(surplus), say("mean.surplus")],
  ];
}

function openFacts(told) {
  const { number, kept } = told.settlements.at(-1);
  return [
    [say("fact.state"), say("fact.open"), say("fact.open.note", { round: number + 1 })],
    [say("fact.sofar"), tradeIn(told, kept), say("fact.sofar.note")],
  ];
}

function reasonOfPayment({ closing: { vickrey, cut, discount, worth } }) {
  const key = vickrey === 0 ? "why.nothing" : "why";
  const values = { added: whole(vickrey), cut: amount(cut), kept: amount(discount) };
  return say(key, { worth: amount(worth), ...values });
}

// All that a statement says to its bidder.
function bidderPart(told) {
  const last = told.settlements.at(-1);
  const { weight, closeRegret, rounds, cap, improve } = told.settings;
  const settings = { weight, close: whole(closeRegret), rounds, cap: whole(cap), improve: whole(improve) };
  const entries = told.isOpen ? openFacts(told) : closedFacts(told);
  return [
    element("h3", {}, say("for", { name: told.name })),
    facts([...entries, [say("fact.regret"), whole(last.regret), say("mean.regret")]]),
    told.isOpen ? null : paragraph(reasonOfPayment(told)),
    ...bidsPart(told),
    ...settlementsPart(told),
    ...pricesPart(told),
    ...treePart(told),
    paragraph(say("settings", settings), "soft"),
  ].filter((part) => part !== null);
}

// What an audit comes to: yes, so far, no or refused.
const kindOf = ({ status, told }) =>
  status === 0 ? "yes" : told.isOpen ? "sofar" : status === 3 ? "no" : "refused";
const isRight = (answer) => ["yes", "sofar"].includes(kindOf(answer));

// What an audit says of a file, in a line.
function answerLine(answer) {
  return say(`is.${kindOf(answer)}`, { line: answer.line.split(" ")[1] });
}

// What stands below that line: why, and what the statement says where it may be believed.
function answerPart({ file, answer }) {
  const { line, told, digest } = answer;
  const [, , rule, place] = line.split(" ");
  const kind = kindOf(answer);
  const isGood = isRight(answer);
  const says = {
    yes: () => say("says.yes"),
    sofar: () => say("says.sofar", { round: told.settlements.length }),
    no: () => `${say(`rule.${rule}`)} ${say("says.no")}`,
    refused: () => say(`fault.${rule}`, { place }),
  }[kind]();
  const hash = digest === null ? null : element("p", { class: "soft" },
    `${say("digest", { file: plain(file.name), size: whole(file.size) })} `, element("code", {}, digest));
  return [
    paragraph(says),
    isGood ? paragraph(say("says.unseen")) : null,
    element("p", { class: "soft" }, say(kind === "sofar" ? "answer.sofar" : "answer", { line })),
    hash,
    ...(isGood ? bidderPart(told) : []),
  ].filter((part) => part !== null);
}
