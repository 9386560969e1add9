// ---- The lines of a file in turn, and how its reading ends: at fault, or at a test that fails.

class Refused extends Error {
  constructor(number, place) {
    super(`refused ${number} ${place}`);
    this.number = number;
    this.place = place;
  }
}

class Failed extends Error {
  constructor(line, rule) {
    super(`no ${line} ${rule}`);
    this.line = line;
    this.rule = rule;
  }
}

const LONGEST_LINE = 8192;
const NEWLINE = 10;
const DECODER = new TextDecoder("latin1");

class Lines {
  constructor(content) {
    this.content = content;
    this.place = 0; // of the bytes that aren't read yet
    this.read = 0; // lines that were read, the one in view among them
    this.taken = 0; // the number of the record that was taken last
    this.view = null; // the record in view
    this.step();
  }

  // Brings the next line into view, where there is one.
  step() {
    this.view = null;
    if (this.place === this.content.length) return;
    this.read += 1;
    const end = this.content.indexOf(NEWLINE, this.place);
    if (end < 0) throw new Refused(51, `${this.read}`);
    try {
      demand(end - this.place <= LONGEST_LINE);
      this.view = recordOf(DECODER.decode(this.content.subarray(this.place, end)));
    } catch (fault) {
      throw fault instanceof NoRecord ? new Refused(50, `${this.read}`) : fault;
    }
    this.place = end + 1;
  }

  sees(...forms) {
    return this.view !== null && forms.includes(this.view.form);
  }

  // The record in view, which has to be of one of these forms.
  take(...forms) {
    const record = this.view;
    if (record === null) throw new Failed(this.taken + 1, "short");
    this.taken += 1;
    this.test(forms.includes(record.form), "order");
    this.step();
    return record;
  }

  // A test of the record that was taken last.
  test(holds, rule) {
    if (!holds) throw new Failed(this.taken, rule);
  }

  // Reads what is left, where a fault comes before every failed test.
  drain() {
    while (this.view !== null) this.step();
  }
}
