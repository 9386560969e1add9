// ---- What the page asks of this script, in a worker: each question has an answer of its own.

const ANSWERS = {
  // A proof that the worker works: the digest of three letters.
  ready: () => new Sha256().update(bytesOfText("abc")).digest(),

  async audit({ file }) {
    const content = await bytesOf(file, 0, MOST_BYTES + 1);
    const isLong = content.length > MOST_BYTES;
    const digest = isLong ? null : new Sha256().update(content).digest();
    return { ...audit(content), digest };
  },

  // A bid in a round that began with an offer, and the sets of the bidder by it.
  try({ offer: begun, goods, lower, upper }) {
    const offer = new Offer(begun);
    const judged = offer.judge(lower, upper, true);
    const isInside = judged.first !== undefined;
    return { ...judged, table: isInside ? tableOf(offer, lower, upper, goods) : null };
  },

  compare,
};

async function answerTo({ id, kind, ...question }) {
  try {
    return { id, answer: await ANSWERS[kind](question) };
  } catch (fault) {
    return { id, fault: `${fault}` };
  }
}

if (typeof WorkerGlobalScope !== "undefined") {
  self.addEventListener("message", async ({ data }) => self.postMessage(await answerTo(data)));
}
