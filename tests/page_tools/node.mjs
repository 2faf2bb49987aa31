// The module in Node: node.mjs LIBRARY MODULE serves calls on its standard input, and with files
// makes the recorded calls of each again, and prints what came of them as a line of JSON. Calls are
// of the form of recorder.c. Before one that is served stands its length, it has 0 for its status
// and no text, and its answer is the status, the length of the text, and the text.
import { readFileSync, writeSync } from "node:fs";
import { pathToFileURL } from "node:url";

const [library, module, ...files] = process.argv.slice(2);
const { Tilugba } = await import(pathToFileURL(library));
const tilugba = await Tilugba.of(readFileSync(module));

function writeAll(bytes) {
  for (let at = 0; at < bytes.length; ) {
    try {
      at += writeSync(1, bytes, at);
    } catch (fault) {
      if (fault.code !== "EAGAIN") throw fault;
    }
  }
}

function answer(packed) {
  let at = 12;
  const piece = () => {
    const size = packed.readUInt32LE(at);
    at += 4 + size;
    return packed.subarray(at - size, at);
  };
  const words = Array.from({ length: packed.readUInt32LE(0) }, piece);
  const lent = Array.from({ length: packed.readUInt32LE(4) }, () => [piece(), piece()]);
  const { status, text } = tilugba.run(words, lent);
  const head = Buffer.alloc(8);
  head.writeUInt32LE(status, 0);
  head.writeUInt32LE(text.length, 4);
  writeAll(Buffer.concat([head, text]));
}

// Pieces that came are put together only where a call is whole: some have 16 MB.
async function serve() {
  let pieces = [];
  let length = 0;
  let wanted = 4;
  for await (const more of process.stdin) {
    pieces.push(more);
    length += more.length;
    while (length >= wanted) {
      let kept = Buffer.concat(pieces);
      const size = kept.readUInt32LE(0);
      wanted = 4 + size;
      if (kept.length >= wanted) {
        answer(kept.subarray(4, wanted));
        kept = kept.subarray(wanted);
        wanted = 4;
      }
      [pieces, length] = [[kept], kept.length];
    }
  }
}

if (files.length) {
  const { replay } = await import(new URL("replay.mjs", import.meta.url));
  for (const it of files) console.log(JSON.stringify(replay(tilugba, readFileSync(it))));
} else {
  await serve();
}
