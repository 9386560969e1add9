// ---- Satisfied sets of a tree, exactly. A set is a text of bits, one a node from the top down.
// A node is {kind, first, second, parent, depth, children}: `first` and `second` are least and most
// of a choice, and the good and the units of a leaf. Weights are of BigInt, one a node.

const byWeight = (one, other) => (one > other ? -1 : one < other ? 1 : 0);

function weightOf(weights, bits) {
  let total = 0n;
  for (let node = 0; node < bits.length; node += 1) if (bits[node] === "1") total += weights[node];
  return total;
}

// What each node adds at most where it is inside, with a best choice of what is below it.
function gainsOf(nodes, weights) {
  const found = weights.slice();
  for (let number = nodes.length - 1; number >= 0; number -= 1) {
    const { kind, first, second, children } = nodes[number];
    if (kind !== "choose") continue;
    const below = children.map((child) => found[child]).sort(byWeight);
    below.slice(0, second).forEach((gain, place) => {
      if (place < first || gain > 0n) found[number] += gain;
    });
  }
  return found;
}

function greatestWeight(nodes, weights) {
  const [root] = gainsOf(nodes, weights);
  return root > 0n ? root : 0n;
}

// A set that no other outweighs, and its weight; where nothing weighs above 0, the empty one.
function bestSet(nodes, weights) {
  const gains = gainsOf(nodes, weights);
  const inside = nodes.map(() => "0");
  if (gains[0] > 0n) inside[0] = "1";
  nodes.forEach(({ kind, first, second, children }, number) => {
    if (kind !== "choose" || inside[number] === "0") return;
    const ranked = children.slice().sort((one, other) => byWeight(gains[one], gains[other]));
    ranked.forEach((child, place) => {
      if (place < first || (place < second && gains[child] > 0n)) inside[child] = "1";
    });
  });
  return { weight: gains[0] > 0n ? gains[0] : 0n, bits: inside.join("") };
}

// Why a set isn't satisfied, by the first fault of its least node at fault; null where it is.
function faultOf(nodes, bits) {
  for (let number = 0; number < nodes.length; number += 1) {
    const { kind, first, second, parent, children } = nodes[number];
    if (bits[number] === "0") continue;
    if (parent !== null && bits[parent] === "0") return "parent";
    if (kind !== "choose") continue;
    const count = children.filter((child) => bits[child] === "1").length;
    if (count < first) return "few";
    if (count > second) return "many";
  }
  return null;
}

// What a set buys less what it sells, good by good.
function unitsOf(nodes, bits, goods) {
  const units = Array(goods).fill(0);
  nodes.forEach(({ kind, first, second }, number) => {
    if (bits[number] === "1" && kind !== "choose") units[first] += kind === "buy" ? second : -second;
  });
  return units;
}

// The number of satisfied sets, the empty one among them.
function countSets(nodes) {
  const inside = nodes.map(() => 1n);
  for (let number = nodes.length - 1; number >= 0; number -= 1) {
    const { kind, first, second, children } = nodes[number];
    if (kind !== "choose") continue;
    let ways = [1n];
    for (const child of children) {
      const longer = [...ways, 0n];
      ways = longer.map((way, taken) => way + (taken > 0 ? inside[child] * ways[taken - 1] : 0n));
    }
    inside[number] = ways.slice(first, second + 1).reduce((total, way) => total + way, 0n);
  }
  return 1n + inside[0];
}

// All sets in their order. A set is found by decisions: each child of a node inside is taken or
// passed, from the left to the right. The greatest weight that is still possible behind a decision
// is known exactly, so it leads from each set to the next in at most one decision a node.

// For a choice: the most that its children from a place on add, where so many are taken already.
function restsOf({ first, second, children }, inside) {
  let after = [];
  for (let taken = 0; taken <= second; taken += 1) after.push(taken >= first ? 0n : null);
  const rests = [after];
  for (const child of children.slice().reverse()) {
    const gain = inside[child];
    after = after.map((passed, taken) => {
      const more = after[taken + 1] ?? null;
      const having = more === null || gain === null ? null : more + gain;
      if (passed === null || having === null) return passed ?? having;
      return passed > having ? passed : having;
    });
    rests.push(after);
  }
  return rests.reverse();
}

// A queue whose least entry comes first: by weight, falling, then by depth, falling, then by age.
class Queue {
  constructor() {
    this.heap = [];
    this.age = 0;
  }

  before(one, other) {
    if (one.weight !== other.weight) return one.weight > other.weight;
    if (one.depth !== other.depth) return one.depth > other.depth;
    return one.age < other.age;
  }

  push(entry) {
    const { heap } = this;
    heap.push({ ...entry, age: this.age });
    this.age += 1;
    let place = heap.length - 1;
    while (place > 0) {
      const above = (place - 1) >> 1;
      if (!this.before(heap[place], heap[above])) break;
      [heap[place], heap[above]] = [heap[above], heap[place]];
      place = above;
    }
  }

  pop() {
    const { heap } = this;
    const [first] = heap;
    const last = heap.pop();
    if (heap.length === 0) return first;
    heap[0] = last;
    for (let place = 0; ; ) {
      let least = place;
      for (const below of [2 * place + 1, 2 * place + 2]) {
        if (below < heap.length && this.before(heap[below], heap[least])) least = below;
      }
      if (least === place) return first;
      [heap[place], heap[least]] = [heap[least], heap[place]];
      place = least;
    }
  }
}

// All satisfied sets from the heaviest on, each once, with its weight.
function* setsInOrder(nodes, weights) {
  const inside = weights.slice();
  const rests = new Map();
  for (let number = nodes.length - 1; number >= 0; number -= 1) {
    if (nodes[number].kind !== "choose") continue;
    const found = restsOf(nodes[number], inside);
    rests.set(number, found);
    inside[number] = found[0][0] === null ? null : weights[number] + found[0][0];
  }
  const left = (node, place, taken) => rests.get(node)[place][taken] ?? null;
  const enter = (node, below) => (rests.has(node) ? { node, place: 0, taken: 0, below } : below);
  const queue = new Queue();
  queue.push({ weight: 0n, depth: 0, open: null, taken: null });
  if (inside[0] !== null) {
    const taken = { node: 0, before: null };
    queue.push({ weight: inside[0], depth: 0, open: enter(0, null), taken });
  }
  while (queue.heap.length > 0) {
    const { weight, depth, open: first, taken } = queue.pop();
    let open = first;
    while (open !== null && open.place === nodes[open.node].children.length) open = open.below;
    if (open === null) {
      const bits = nodes.map(() => "0");
      for (let each = taken; each !== null; each = each.before) bits[each.node] = "1";
      yield { weight, bits: bits.join("") };
      continue;
    }
    const { node, place, below } = open;
    const child = nodes[node].children[place];
    const here = left(node, place, open.taken);
    const rest = left(node, place + 1, open.taken + 1);
    if (rest !== null && inside[child] !== null) {
      const after = { node, place: place + 1, taken: open.taken + 1, below };
      const more = weight - here + rest + inside[child];
      const all = { node: child, before: taken };
      queue.push({ weight: more, depth: depth + 1, open: enter(child, after), taken: all });
    }
    const passed = left(node, place + 1, open.taken);
    if (passed !== null) {
      const after = { node, place: place + 1, taken: open.taken, below };
      queue.push({ weight: weight - here + passed, depth: depth + 1, open: after, taken });
    }
  }
}
