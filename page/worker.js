// What computes: the page has one worker for runs, which can be stopped, and one for its marks.

import { Tilugba, placeOfFault } from "./library.js";
import { candidatesFor, fits, shortened } from "./offers.js";

// After so many trials a worker looks whether something newer was asked.
const TRIALS = 8;
let library;
let newest = 0;

const decoded = (bytes) => new TextDecoder().decode(bytes);

// Lets a message in that waits: a timer would wait for milliseconds more.
const turns = new MessageChannel();
const pause = () =>
  new Promise((done) => {
    turns.port1.onmessage = done;
    turns.port2.postMessage(0);
  });

function run({ words, files }) {
  const began = performance.now();
  const { status, text, memory } = library.run(words, files);
  return { status, text, memory, took: performance.now() - began };
}

// The words and marks that may stand behind a text, by asking the program about the text with each.
async function offers({ id, words, name, text: whole, language }) {
  const text = shortened(whole);
  const candidates = candidatesFor(text, language);
  const ask = (tried) => {
    const { status, text: said } = library.run(words, [[name, tried]]);
    return status === 6 ? placeOfFault(status, decoded(said)) : null;
  };
  const found = [];
  for (const [at, it] of candidates.entries()) {
    if (fits(ask, text, it.text)) found.push(it);
    if (at % TRIALS === TRIALS - 1) await pause();
    if (newest !== id) return null;
  }
  return { found };
}

async function answer(data) {
  if (data.module) {
    library = new Tilugba(data.module);
    return { ready: true };
  }
  newest = data.id;
  return data.language ? offers(data) : run(data);
}

onmessage = async ({ data }) => {
  const { id } = data;
  try {
    const said = await answer(data);
    if (said) postMessage({ id, ...said }, said.text ? [said.text.buffer] : []);
    else postMessage({ id, dropped: true });
  } catch (fault) {
    postMessage({ id, trap: `${fault.name ?? "fault"}: ${fault.message ?? fault}` });
  }
};
