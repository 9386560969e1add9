// ---- Both activity rules for one bidder in one round, exactly, as docs/definitions.md states them.
// Nets are values less what units cost at the prices, here times the prices' denominator. An offer
// is {nodes, low, high, prices, provisional, improve}: what the round begins with for the bidder.

class Offer {
  constructor({ nodes, low, high, prices, provisional, improve }) {
    this.nodes = nodes;
    this.low = low.map(BigInt);
    this.high = high.map(BigInt);
    this.scale = prices.denominator;
    this.provisional = provisional;
    this.improve = BigInt(improve);
    this.costs = nodes.map(({ kind, first, second }) => {
      if (kind === "choose") return 0n;
      const cost = prices.numerators[first] * BigInt(second);
      return kind === "buy" ? cost : -cost;
    });
  }

  // An amount of money, in lowest terms.
  amount(net) {
    const divisor = divisorOf(net, this.scale);
    return { top: net / divisor, bottom: this.scale / divisor };
  }

  cost(bits) {
    return this.amount(weightOf(this.costs, bits));
  }

  nets(values) {
    return values.map((value, node) => this.scale * value - this.costs[node]);
  }

  // The nets at the values worst for a set: lower ones on it, upper ones elsewhere.
  against(bits, low, high) {
    return this.nets(low.map((least, node) => (bits[node] === "1" ? least : high[node])));
  }

  // The nets at the values best for a set: upper ones on it, lower ones elsewhere.
  inFavour(bits, low, high) {
    return this.nets(low.map((least, node) => (bits[node] === "1" ? high[node] : least)));
  }

  // The best set at these nets, and by how much it leads another one.
  lead(bits, nets) {
    const best = bestSet(this.nodes, nets);
    return { bits: best.bits, lead: best.weight - weightOf(nets, bits) };
  }

  couldBeBest(bits, low, high) {
    return this.lead(bits, this.inFavour(bits, low, high)).lead === 0n;
  }

  isBest(bits, low, high) {
    return this.lead(bits, this.against(bits, low, high)).lead === 0n;
  }

  // What the bidder may lack at most by its provisional set, and by which set.
  lack(low, high) {
    return this.lead(this.provisional, this.against(this.provisional, low, high));
  }

  // The first rule. What is wanted is a best set by the middles, the provisional one where that is
  // one of several: where some set is best by all values, so is this one. Where the rule doesn't
  // hold, `other` is the set that it couldn't be told from, which could leave more by `gap`.
  firstRule(low, high) {
    const own = this.provisional;
    const middles = low.map(
      (least, node) => this.scale * (least + high[node]) - 2n * this.costs[node]);
    const favourite = this.lead(own, middles);
    const wanted = favourite.lead > 0n ? favourite.bits : own;
    const rival = this.lead(wanted, this.against(wanted, low, high));
    if (rival.lead > 0n) {
      return { holds: false, wanted, other: rival.bits, gap: this.amount(rival.lead) };
    }
    const nets = this.inFavour(own, low, high);
    const behind = weightOf(nets, wanted) - weightOf(nets, own);
    if (behind > 0n || this.isBest(own, low, high)) return { holds: true, wanted };
    return { holds: false, wanted, other: own, gap: this.amount(-behind) };
  }

  // The second rule: what may be lacking before and now, what it may be at most, and by how much
  // some set beats the provisional one whatever the values are.
  secondRule(low, high) {
    this.before ??= this.lack(this.low, this.high).lead; // the same for each bid of the round
    const { before } = this;
    const now = this.lack(low, high);
    const { lead: gain } = this.lead(this.provisional, this.inFavour(this.provisional, low, high));
    const most = before - this.improve * this.scale;
    return {
      holds: now.lead === 0n || now.lead <= most || gain > most,
      before: this.amount(before),
      now: this.amount(now.lead),
      most: this.amount(most),
      gain: this.amount(gain),
      other: now.bits,
    };
  }

  // The verdict on a first bid of the round, with the node at fault where it names one, and what
  // the rules say: the second one where the first holds, or where both are wanted.
  judge(lower, upper, both = false) {
    const count = this.nodes.length;
    if (lower.length !== count || upper.length !== count) return { verdict: "46", node: null };
    const [low, high] = [lower.map(BigInt), upper.map(BigInt)];
    const crossed = low.findIndex((least, node) => least > high[node]);
    if (crossed >= 0) return { verdict: "41", node: crossed };
    const isLoose = (least, node) => least < this.low[node] || high[node] > this.high[node];
    const loosened = low.findIndex(isLoose);
    if (loosened >= 0) return { verdict: "40", node: loosened };
    const first = this.firstRule(low, high);
    const second = first.holds || both ? this.secondRule(low, high) : null;
    const verdict = first.holds ? (second.holds ? "accepted" : "43") : "42";
    return { verdict, node: null, first, second };
  }
}

// ---- The table of nets: the sets of the bidder that could be best at the prices.

const [SHOWN, LOOKED_AT] = [20, 1000];

// What two sets have in common that leave the same whatever the values are.
function samenessOf(offer, bits, low, high, goods) {
  let sure = 0n;
  const unsure = [];
  low.forEach((least, node) => {
    if (bits[node] === "0") return;
    if (least === high[node]) sure += least;
    else unsure.push(node);
  });
  return `${unitsOf(offer.nodes, bits, goods)};${unsure};${sure}`;
}

function rowOf(offer, bits, state, low, high, goods) {
  const same = (each) => samenessOf(offer, each, low, high, goods);
  return {
    bits,
    units: unitsOf(offer.nodes, bits, goods),
    cost: offer.cost(bits),
    least: offer.amount(weightOf(offer.nets(low), bits)),
    most: offer.amount(weightOf(offer.nets(high), bits)),
    state,
    isProvisional: same(bits) === same(offer.provisional),
  };
}

function stateOf(offer, bits, low, high) {
  if (!offer.couldBeBest(bits, low, high)) return "behind";
  return offer.isBest(bits, low, high) ? "sure" : "open";
}

// The sets that could be best inside these intervals, those that leave most at most first, and
// then the provisional set and that of no nodes, where they are behind. `extent` is `all` where
// these are all that could be best, `first` where there are more, and `among` where only so many
// sets were looked at; `shares` says that an unsettled value stands in several of them.
function tableOf(offer, lower, upper, goods) {
  const [low, high] = [lower.map(BigInt), upper.map(BigInt)];
  const least = bestSet(offer.nodes, offer.nets(low)).weight;
  const rows = new Map();
  const unsure = [];
  let extent = "all";
  let number = 0;
  for (const { weight, bits } of setsInOrder(offer.nodes, offer.nets(high))) {
    if (weight < least) break;
    if (number === LOOKED_AT) {
      extent = "among";
      break;
    }
    number += 1;
    const key = samenessOf(offer, bits, low, high, goods);
    const state = rows.has(key) ? "behind" : stateOf(offer, bits, low, high);
    if (state === "behind") continue;
    if (rows.size === SHOWN) {
      extent = "first";
      break;
    }
    rows.set(key, rowOf(offer, bits, state, low, high, goods));
    unsure.push(...key.split(";")[1].split(",").filter((node) => node !== ""));
  }
  for (const bits of [offer.provisional, "0".repeat(offer.nodes.length)]) {
    const key = samenessOf(offer, bits, low, high, goods);
    if (!rows.has(key)) {
      const state = stateOf(offer, bits, low, high);
      rows.set(key, rowOf(offer, bits, state, low, high, goods));
    }
  }
  return {
    rows: [...rows.values()],
    extent,
    sets: countSets(offer.nodes),
    shares: unsure.length > new Set(unsure).size,
  };
}
