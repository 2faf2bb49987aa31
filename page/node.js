// The program in Node, on any system: node node.js WORD.., with the words of the command line. It
// reads the files that the words name, and has the program's text and statuses.
import { readFileSync, statSync, writeSync } from "node:fs";
import { fileURLToPath } from "node:url";
import { OUT_OF_MEMORY, Tilugba } from "./library.js";

const NOT_WRITTEN = 4;
const NO_ANSWER = 70;
const isFile = (name) => statSync(name, { throwIfNoEntry: false })?.isFile() ?? false;

// What a word names; a file that cannot be read is left out, and the program says so.
function lent(name) {
  try {
    return name && isFile(name) ? [[name, readFileSync(name)]] : [];
  } catch {
    return [];
  }
}

// Writes all of it, also to a pipe that takes it in parts.
function write(bytes) {
  for (let at = 0; at < bytes.length; ) {
    try {
      at += writeSync(1, bytes, at);
    } catch (fault) {
      if (fault.code !== "EAGAIN") return NOT_WRITTEN;
    }
  }
  return 0;
}

function run(tilugba, words) {
  try {
    const { status, text } = tilugba.run(words, words.flatMap(lent));
    return write(text) || status;
  } catch (fault) {
    if (fault instanceof RangeError && !/stack/i.test(fault.message)) return OUT_OF_MEMORY;
    console.error(`tilugba: no answer: ${fault.message}`);
    return NO_ANSWER;
  }
}

const module = readFileSync(fileURLToPath(new URL("tilugba.wasm", import.meta.url)));
process.exitCode = run(await Tilugba.of(module), process.argv.slice(2));
