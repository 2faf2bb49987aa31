// The worker of a browser in which recorded calls are made again: it lies in a copy of the page's
// folder, beside the calls.
import { Tilugba } from "./library.js";
import { replay } from "./replay.mjs";

onmessage = async ({ data: names }) => {
  const bytes = async (it) => new Uint8Array(await (await fetch(it)).arrayBuffer());
  const tilugba = await Tilugba.of(await bytes("tilugba.wasm"));
  const found = {};
  for (const it of names) found[it] = replay(tilugba, await bytes(it));
  postMessage(found);
};
