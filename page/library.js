// The call of the library: one command over words and files, each a text or bytes. This file is
// that of the page, of its workers, and of Node.

const LEAST = 16;
const FIRST_ROOM = 1 << 16;
export const OUT_OF_MEMORY = 9;

const bytesOf = (it) => (typeof it === "string" ? new TextEncoder().encode(it) : it);

// What one instance of the module has been lent, and what it answers.
class Call {
  constructor(module) {
    this.lib = new WebAssembly.Instance(module, {}).exports;
  }

  // Room in the instance's memory, or 0n. Addresses are BigInt in both forms of the module.
  take(size) {
    return this.lib.page_take(BigInt(Math.max(size, LEAST)));
  }

  // Lends bytes, and answers where they are and how many; null where there is no memory for them.
  put(bytes) {
    const at = this.take(bytes.length);
    if (at === 0n) return null;
    new Uint8Array(this.lib.memory.buffer).set(bytes, Number(at));
    return [at, BigInt(bytes.length)];
  }

  // Lends a table of addresses and lengths.
  table(numbers) {
    const at = this.take(numbers.length * 8);
    if (at === 0n) return null;
    new BigUint64Array(this.lib.memory.buffer, Number(at), numbers.length).set(numbers);
    return at;
  }

  lendAll(pieces) {
    const found = [];
    for (const it of pieces) {
      const lent = this.put(bytesOf(it));
      if (!lent) return null;
      found.push(...lent);
    }
    return this.table(found);
  }
}

export class Tilugba {
  constructor(module) {
    this.module = module;
  }

  static async of(bytes) {
    return new Tilugba(await WebAssembly.compile(bytes));
  }

  // Runs the command of `words` over `files`, pairs of a name and what it holds. Answers its
  // status, its text as bytes, and how much memory the call took. Each call has an instance of its
  // own, so nothing is kept. What stops WebAssembly itself, such as a stack that ends, is thrown.
  run(words, files) {
    const none = { status: OUT_OF_MEMORY, text: new Uint8Array(0), memory: 0 };
    const call = new Call(this.module);
    const { lib } = call;
    const wordsAt = call.lendAll(words);
    const filesAt = wordsAt === null ? null : call.lendAll(files.flat());
    const countAt = filesAt === null ? 0n : call.take(8);
    if (countAt === 0n) return none;
    for (let size = FIRST_ROOM; ; ) {
      const room = call.take(size);
      if (room === 0n) return none;
      const lent = [wordsAt, BigInt(words.length), filesAt, BigInt(files.length)];
      const status = lib.tilugba_run(...lent, room, BigInt(size), countAt);
      const { buffer } = lib.memory;
      const count = Number(new BigUint64Array(buffer, Number(countAt), 1)[0]);
      if (count <= size) {
        const text = new Uint8Array(buffer, Number(room), count).slice();
        return { status, text, memory: buffer.byteLength };
      }
      lib.page_free(room);
      size = count;
    }
  }
}

// The line and the column, both from 1 and the column in bytes, of the fault of a text; or null.
// The status decides, for a contract may be named `fault`.
export function placeOfFault(status, text) {
  const found = status === 6 && /^fault text (\w+) line (\d+) column (\d+)\n$/.exec(text);
  return found ? { kind: found[1], line: Number(found[2]), column: Number(found[3]) } : null;
}
