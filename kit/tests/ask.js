// Answers the questions on standard input, one in each line, by the kit's logic that stands before
// this. Whole numbers of any size are texts on both sides, and bytes are in base 64.

const told = (_, value) => (typeof value === "bigint" ? `${value}` : value);
const bytes = (text) => new Uint8Array(Buffer.from(text, "base64"));

const TESTED = {
  audit: ({ content, zeros }) => audit(zeros ? new Uint8Array(zeros) : bytes(content)),
  digest: ({ content }) => new Sha256().update(bytes(content)).digest(),
  compare: ({ content, list, salt }) => compare({ file: new Blob([bytes(content)]), list, salt }),

  // A bid by what a round begins with, of which the prices are texts.
  try({ offer, goods, lower, upper }) {
    const denominator = BigInt(offer.prices.denominator);
    const numerators = offer.prices.numerators.map(BigInt);
    const begun = { ...offer, prices: { denominator, numerators } };
    return ANSWERS.try({ offer: begun, goods, lower, upper });
  },
};

async function answerAll() {
  for await (const line of require("node:readline").createInterface({ input: process.stdin })) {
    const { kind, ...question } = JSON.parse(line);
    console.log(JSON.stringify(await TESTED[kind](question), told));
  }
}

answerAll();
