// ---- A bid that is tried: its fields, the verdict on it, its sets at the prices, the file to send.

const MOST_VALUE = 1e9;
const trying = { told: null, number: 0, low: [], high: [], answer: null };

const roundsOf = (told) => told.settlements.filter(({ prices }) => prices !== null);
const isAwaited = ({ told, number }) => told.isOpen && number === told.settlements.length - 1;
const settlementTried = () => trying.told.settlements[trying.number];

// Begins with the round that is awaited, or the last one that was.
function startTrying(told) {
  trying.told = told !== null && roundsOf(told).length > 0 ? told : null;
  if (trying.told !== null) chooseRound(roundsOf(told).at(-1).number);
}

function chooseRound(number) {
  trying.number = number;
  trying.low = settlementTried().low.map(String);
  trying.high = settlementTried().high.map(String);
  trying.answer = null;
}

const isWhole = (text) => /^-?[0-9]{1,10}$/.test(text) && Math.abs(Number(text)) <= MOST_VALUE;

// The numbers in the fields; or the first node at which one is no whole number.
function numbersTried() {
  const wrong = trying.low.findIndex((low, node) => !isWhole(low) || !isWhole(trying.high[node]));
  if (wrong >= 0) return { wrong };
  const read = (text) => Number(text) + 0;
  return { low: trying.low.map(read), high: trying.high.map(read) };
}

// What the round begins with for the bidder.
function roundTried() {
  const { nodes, goods, settings: { improve } } = trying.told;
  const { low, high, prices, offered } = settlementTried();
  return { offer: { nodes, low, high, prices, provisional: offered, improve }, goods: goods.length };
}

// Asks for the verdict on what stands in the fields, and shows it where it is still wanted.
async function judgeTried() {
  const { wrong, low, high } = numbersTried();
  if (wrong !== undefined) {
    trying.answer = { wrong };
  } else {
    try {
      const answer = await askNewest({ kind: "try", ...roundTried(), lower: low, upper: high });
      if (answer === null) return;
      trying.answer = { ...answer, low, high };
    } catch (fault) {
      trying.answer = { failed: plain(fault.message) };
    }
  }
  showTried();
}

function endField(node, side) {
  const { low, high } = settlementTried();
  const label = `${say("head.node")} ${node}: ${say(`try.${side === "low" ? "lower" : "upper"}`)}`;
  const change = (text, other) => {
    trying[side][node] = text.trim().replace(MINUS, "-");
    other.value = text;
    judgeTried();
  };
  // Some phones have no minus among the keys of numbers.
  const keys = low[node] < 0 ? "text" : "numeric";
  const field = element("input", { type: "text", inputmode: keys, "aria-label": label,
    autocomplete: "off", spellcheck: "false", maxlength: "11", name: `${side}-${node}` });
  const slider = element("input", { type: "range", min: low[node], max: high[node], step: 1,
    "aria-label": label, name: `${side}-slider-${node}` });
  field.value = trying[side][node];
  slider.value = trying[side][node];
  field.addEventListener("input", () => change(field.value, slider));
  slider.addEventListener("input", () => change(slider.value, field));
  return element("div", { class: "end" },
    element("label", {}, element("span", {}, say(side === "low" ? "try.lower" : "try.upper")), field),
    slider);
}

// A node with what it trades, and its fields where its value isn't settled.
function nodeRow(node) {
  const { told } = trying;
  const { low, high } = settlementTried();
  const words = element("div", { class: "what" },
    element("b", {}, `${node}`), ` ${nodeTrade(told, node)}`);
  words.style.paddingInlineStart = `${0.9 * (told.nodes[node].depth - 1)}rem`;
  const isSettled = low[node] === high[node];
  const so = isSettled ? say("try.fixed", { value: whole(low[node]) }) :
    say("try.before", { span: span(low[node], high[node]) });
  const isIdle = isSettled && low[node] === 0;
  return element("div", { class: `node${isIdle ? " idle" : ""}` }, words,
    isIdle ? null : element("span", { class: "soft" }, so),
    ...(isSettled ? [] : [endField(node, "low"), endField(node, "high")]));
}

function roundField() {
  const choice = element("select", { id: "round" });
  for (const { number } of roundsOf(trying.told)) {
    const key = isAwaited({ ...trying, number }) ? "try.awaited" : "try.over";
    const option = element("option", { value: number }, say(key, { round: number + 1 }));
    option.selected = number === trying.number;
    choice.append(option);
  }
  choice.addEventListener("change", () => {
    chooseRound(Number(choice.value));
    showTrying();
    byId("round").focus();
  });
  return element("p", {}, element("label", {}, `${say("try.round")} `, choice));
}

// The whole part, with the fields; the verdict comes below them when it is there.
function showTrying() {
  const place = byId("trying");
  if (trying.told === null) {
    place.replaceChildren(paragraph(say("try.none"), "soft"));
    return;
  }
  const { told } = trying;
  const { weight } = told.settings;
  const from = { 100: "try.lower.all", 0: "try.upper.all" }[weight] ?? "try.between";
  const where = say(from, { weight, rest: 100 - weight });
  const trade = quoted(told, settlementTried().offered);
  const reset = () => {
    chooseRound(trying.number);
    showTrying();
  };
  place.replaceChildren(
    roundField(),
    isAwaited(trying) ? "" : paragraph(say("try.overnote"), "soft"),
    paragraph(say("try.provisional", { trade, where })),
    legend("provisional"),
    paragraph(say("try.ask")),
    element("div", { class: "nodes" }, ...told.nodes.map((_, node) => nodeRow(node))),
    element("p", {}, element("button", { type: "button", onclick: reset }, say("try.reset"))),
    element("p", { id: "verdict", role: "status" }),
    element("div", { id: "tried" }),
    element("div", { id: "sets" }),
    element("div", { id: "send" }),
  );
  judgeTried();
}

// Which nodes with an interval left a set has that another one hasn't.
function ownNodes(one, other, { low, high }) {
  return insideOf(one).filter((node) => other[node] === "0" && low[node] < high[node]);
}

function mendOf({ first, low, high }) {
  const raise = ownNodes(first.wanted, first.other, { low, high });
  const lower = ownNodes(first.other, first.wanted, { low, high });
  if (first.gap.top === 0n || (raise.length === 0 && lower.length === 0)) return "";
  const values = { raise: nodesOf(raise), lower: nodesOf(lower), gap: amount(first.gap) };
  const key = lower.length === 0 ? "try.mend.raise" : raise.length === 0 ? "try.mend.lower" : "try.mend";
  return say(key, values);
}

// Whether the intervals are those with which the round began.
function isUntouched({ low, high }) {
  const begun = settlementTried();
  return low.every((least, node) => least === begun.low[node] && high[node] === begun.high[node]);
}

// Sales above 0 and purchases below 0, which are seldom meant.
function signsOf({ low, high }) {
  return trying.told.nodes.flatMap(({ kind }, node) => {
    if (kind === "sell" && high[node] > 0) {
      return [say("try.sign.sell", { node, value: whole(high[node]) })];
    }
    if (kind !== "buy" || low[node] >= 0) return [];
    return [say("try.sign.buy", { node, value: whole(-low[node]) })];
  });
}

function rulesPart({ first, second }) {
  if (first === undefined) return [];
  const wanted = first.holds ? quoted(trying.told, first.wanted) : "";
  const most = amount(second.most);
  const asks = second.most.top < 0n ? [[say("try.lack.most"), say("try.lack.any"), say("try.lack.any.note")]] : [
    [say("try.lack.most"), most, say("try.lack.most.note")],
    [say("try.lack.gain"), amount(second.gain), say("try.lack.gain.note", { most })],
  ];
  const numbers = [
    [say("try.lack.before"), amount(second.before), say("try.lack.note")],
    [say("try.lack.now"), amount(second.now), say("try.lack.note")],
    ...asks,
  ];
  const [one, two] = [first, second].map(({ holds }) => (holds ? "yes" : "no"));
  const part = (rule, text) => element("p", {}, `${say(`try.${rule}`)} `,
    element("b", { class: text.look }, text.says));
  return [
    part("first", { look: first.holds ? "good" : "bad", says: say(`try.first.${one}`, { wanted }) }),
    part("second", { look: second.holds ? "good" : "bad", says: say(`try.second.${two}`) }),
    facts(numbers),
  ];
}

function setsPart({ table: found }) {
  if (!found) return [];
  const { told, number } = trying;
  const rows = found.rows.map(({ bits, units, cost, least, most, state, isProvisional }) => {
    const stands = say(`state.${state}`);
    const shown = isProvisional ? say("state.provisional", { state: stands }) : stands;
    const name = [element("span", {}, tradeOf(units, told.goods)),
      element("div", { class: "soft" }, `${shown} · ${nodesOf(insideOf(bits))}`)];
    return { cells: [name, ...[cost, least, most].map(amountCell)],
      look: state === "behind" ? "idle" : isProvisional ? "inside" : null };
  });
  const heads = ["set", "costs", "least", "most"].map((key) => say(`head.${key}`));
  const count = { all: whole(found.sets), first: "20", among: whole(1000) }[found.extent];
  const caption = say("table.sets", { round: number + 1 });
  return [
    element("h3", {}, caption),
    table(caption, heads, rows, "sets"),
    paragraph(say("sets.key.costs"), "legend"),
    legend("leaves", "open"),
    paragraph(say(`sets.${found.extent}`, { count })),
    found.shares ? paragraph(say("sets.shares")) : "",
  ];
}

// The bid as the line of a file.
function bidLine({ name }, { low, high }) {
  return `{"bidder": "${name}", "lo": [${low.join(", ")}], "hi": [${high.join(", ")}]}`;
}

function sendPart(answer) {
  if (!isAwaited(trying)) return [];
  const heading = element("h3", {}, say("send"));
  if (answer.verdict !== "accepted") return [heading, paragraph(say("send.not"), "soft")];
  const { told } = trying;
  const line = bidLine(told, answer);
  const text = element("textarea", { id: "line", readonly: true, rows: "3", "aria-label": say("send") });
  text.value = line;
  const file = `${told.name}.json`;
  const done = element("span", { role: "status" });
  const save = () => {
    const url = URL.createObjectURL(new Blob([`${line}\n`], { type: "application/json" }));
    element("a", { href: url, download: file }).click();
    setTimeout(() => URL.revokeObjectURL(url), 60000);
  };
  const copy = async () => {
    try {
      await navigator.clipboard.writeText(line);
      done.textContent = say("send.copied");
    } catch {
      text.select();
      done.textContent = say("send.nocopy");
    }
  };
  return [heading, paragraph(`${say("send.says")} ${say("try.notsent")}`), text,
    element("p", {}, element("button", { type: "button", onclick: save }, say("send.save", { file })),
      " ", element("button", { type: "button", onclick: copy }, say("send.copy")), " ", done)];
}

// The verdict on the bid that is tried, and all that goes with it.
function showTried() {
  const { answer, told } = trying;
  if (answer === null || byId("tried") === null) return;
  const { wrong, failed, verdict } = answer;
  if (wrong !== undefined || failed !== undefined) {
    const text = failed === undefined ? say("try.nowhole", { node: wrong }) :
      say("failed", { why: failed });
    tell(byId("verdict"), text, "bad");
    for (const id of ["tried", "sets", "send"]) byId(id).replaceChildren();
    return;
  }
  const isGood = verdict === "accepted";
  tell(byId("verdict"), say(isGood ? "try.good" : "try.bad"), isGood ? "good" : "bad");
  const why = reasonOf(told, settlementTried(), answer);
  const mend = verdict === "42" ? mendOf(answer) : "";
  byId("tried").replaceChildren(
    ...(isGood ? [] : [paragraph(`${say(`verdict.${verdict}`)}. ${why} ${mend}`)]),
    ...(isUntouched(answer) ? [paragraph(say("try.untouched"))] : []),
    ...signsOf(answer).map((text) => paragraph(text, "bad")),
    ...rulesPart(answer),
  );
  byId("sets").replaceChildren(...setsPart(answer));
  byId("send").replaceChildren(...sendPart(answer));
}
