// Makes recorded calls again on a module, and compares statuses and bytes; in Node, and in a worker
// of a browser. The form of the file is that of tests/page_tools/recorder.c.

// How many differences are told.
const MOST_TOLD = 5;

class Calls {
  constructor(bytes) {
    this.bytes = bytes;
    this.view = new DataView(bytes.buffer, bytes.byteOffset, bytes.byteLength);
    this.at = 0;
  }

  number() {
    this.at += 4;
    return this.view.getUint32(this.at - 4, true);
  }

  piece() {
    const size = this.number();
    this.at += size;
    return this.bytes.subarray(this.at - size, this.at);
  }

  *[Symbol.iterator]() {
    while (this.at < this.bytes.length) {
      const [words, files, status] = [this.number(), this.number(), this.number()];
      yield {
        words: Array.from({ length: words }, () => this.piece()),
        files: Array.from({ length: files }, () => [this.piece(), this.piece()]),
        status,
        text: this.piece(),
      };
    }
  }
}

const same = (a, b) => a.length === b.length && a.every((it, at) => it === b[at]);

// Answers how many calls give the same, how many do not and what of some of them, by status how
// many there were, the most memory that a call took, and how many milliseconds all of them took.
export function replay(library, bytes) {
  const began = performance.now();
  const found = { good: 0, bad: 0, told: [], statuses: {}, memory: 0 };
  for (const { words, files, status, text } of new Calls(bytes)) {
    let got;
    try {
      got = library.run(words, files);
    } catch (fault) {
      got = { status: String(fault), text: new Uint8Array(0), memory: 0 };
    }
    found.statuses[got.status] = (found.statuses[got.status] ?? 0) + 1;
    found.memory = Math.max(found.memory, got.memory);
    if (got.status === status && same(got.text, text)) {
      found.good++;
      continue;
    }
    found.bad++;
    if (found.told.length >= MOST_TOLD) continue;
    const said = words.map((it) => new TextDecoder().decode(it).slice(0, 60)).join(" ");
    found.told.push(`${said}: wanted ${status}, got ${got.status}`);
  }
  return { ...found, milliseconds: Math.round(performance.now() - began) };
}
