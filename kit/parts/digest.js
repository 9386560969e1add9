// ---- SHA-256, of bytes that come in pieces, and the lines of a published list.

const primesUpTo = (most) => {
  const found = [];
  for (let number = 2; found.length < most; number += 1) {
    if (found.every((prime) => number % prime !== 0)) found.push(number);
  }
  return found;
};
const fractionBits = (number) => Math.floor((number - Math.floor(number)) * 2 ** 32) | 0;
const PRIMES = primesUpTo(64);
const ROUND_WORDS = Int32Array.from(PRIMES, (prime) => fractionBits(Math.cbrt(prime)));
const FIRST_STATE = Int32Array.from(PRIMES.slice(0, 8), (prime) => fractionBits(Math.sqrt(prime)));
const HASH_BLOCK = 64;

class Sha256 {
  constructor() {
    this.state = FIRST_STATE.slice();
    this.rest = new Uint8Array(HASH_BLOCK); // bytes that fill no block yet
    this.size = 0;
    this.words = new Int32Array(64);
  }

  copy() {
    const other = new Sha256();
    other.state.set(this.state);
    other.rest.set(this.rest);
    other.size = this.size;
    return other;
  }

  update(bytes) {
    let place = 0;
    const held = this.size % HASH_BLOCK;
    this.size += bytes.length;
    if (held > 0) {
      place = Math.min(HASH_BLOCK - held, bytes.length);
      this.rest.set(bytes.subarray(0, place), held);
      if (held + place < HASH_BLOCK) return this;
      this.mix(this.rest, 0);
    }
    for (; place + HASH_BLOCK <= bytes.length; place += HASH_BLOCK) this.mix(bytes, place);
    this.rest.set(bytes.subarray(place));
    return this;
  }

  mix(bytes, start) {
    const { state, words } = this;
    for (let number = 0; number < 16; number += 1) {
      const place = start + 4 * number;
      words[number] = (bytes[place] << 24) | (bytes[place + 1] << 16) | (bytes[place + 2] << 8)
        | bytes[place + 3];
    }
    for (let number = 16; number < 64; number += 1) {
      const [early, late] = [words[number - 15], words[number - 2]];
      const one = ((early >>> 7) | (early << 25)) ^ ((early >>> 18) | (early << 14)) ^ (early >>> 3);
      const two = ((late >>> 17) | (late << 15)) ^ ((late >>> 19) | (late << 13)) ^ (late >>> 10);
      words[number] = (words[number - 16] + one + words[number - 7] + two) | 0;
    }
    let [a, b, c, d, e, f, g, h] = state;
    for (let number = 0; number < 64; number += 1) {
      const turnedE = ((e >>> 6) | (e << 26)) ^ ((e >>> 11) | (e << 21)) ^ ((e >>> 25) | (e << 7));
      const one = (h + turnedE + ((e & f) ^ (~e & g)) + ROUND_WORDS[number] + words[number]) | 0;
      const turnedA = ((a >>> 2) | (a << 30)) ^ ((a >>> 13) | (a << 19)) ^ ((a >>> 22) | (a << 10));
      const two = (turnedA + ((a & b) ^ (a & c) ^ (b & c))) | 0;
      h = g;
      g = f;
      f = e;
      e = (d + one) | 0;
      d = c;
      c = b;
      b = a;
      a = (one + two) | 0;
    }
    [a, b, c, d, e, f, g, h].forEach((word, place) => (state[place] = (state[place] + word) | 0));
  }

  // The digest of all bytes so far, in hexadecimal digits.
  digest() {
    const last = this.copy();
    const zeros = (2 * HASH_BLOCK - 9 - (this.size % HASH_BLOCK)) % HASH_BLOCK;
    const end = new Uint8Array(9 + zeros);
    end[0] = 0x80;
    new DataView(end.buffer).setBigUint64(1 + zeros, 8n * BigInt(this.size));
    last.update(end);
    return Array.from(last.state, (word) => (word >>> 0).toString(16).padStart(8, "0")).join("");
  }
}

const bytesOfHex = (digits) =>
  Uint8Array.from(digits.match(/../g) ?? [], (pair) => parseInt(pair, 16));
const bytesOfText = (text) => Uint8Array.from(text, (letter) => letter.charCodeAt(0));

// The lines of a published list, of rounds and of statements in any order; null at the first line
// that is none, and where none is there.
const OF_ROUND = new RegExp("^(?:(front) (0|[1-9][0-9]?)|(whole) (-|0|[1-9][0-9]?)) "
  + "([1-9][0-9]{0,11}) ([0-9a-f]{64})( salted)?$");
const OF_STATEMENT = /^statement ([0-9]{1,2}) ([0-9a-f]{64})$/;

function readList(text) {
  const found = [];
  for (const line of text.split("\n").map((each) => each.trim()).filter((each) => each !== "")) {
    const [round, statement] = [OF_ROUND.exec(line), OF_STATEMENT.exec(line)];
    if (round !== null) {
      const [, front, awaited, whole, last, size, digest, salted] = round;
      const entry = { word: front ?? whole, settlement: awaited ?? last, size: Number(size), digest };
      found.push({ ...entry, isSalted: salted !== undefined });
    } else if (statement !== null) {
      found.push({ word: "statement", settlement: statement[1], digest: statement[2] });
    } else {
      return null;
    }
  }
  return found.length > 0 ? found : null;
}

// The salt in what was typed: 64 hexadecimal digits, or a line `salt NAME DIGITS`; null where it
// is neither. Its name is null where none stands there.
function readSalt(text) {
  const found = /^(?:salt ([A-Za-z0-9_.-]{1,32}) )?([0-9a-f]{64})$/.exec(text.trim());
  return found === null ? null : { name: found[1] ?? null, bytes: bytesOfHex(found[2]) };
}
