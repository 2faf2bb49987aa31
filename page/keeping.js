// What the page keeps: in this browser alone, what was typed; and in a link, a whole case.

const KEY = "tilugba.case";
const BEFORE = "tilugba.case.before";
const MARK = "#case=";
const MOST_IN_LINK = 16000000;

async function through(stream, bytes) {
  const piped = new Blob([bytes]).stream().pipeThrough(stream);
  return new Uint8Array(await new Response(piped).arrayBuffer());
}

function toText(bytes) {
  let found = "";
  for (let at = 0; at < bytes.length; at += 8192) {
    found += String.fromCharCode(...bytes.subarray(at, at + 8192));
  }
  return btoa(found).replaceAll("+", "-").replaceAll("/", "_").replace(/=+$/, "");
}

function toBytes(text) {
  const found = atob(text.replaceAll("-", "+").replaceAll("_", "/"));
  return Uint8Array.from(found, (it) => it.charCodeAt(0));
}

// The fragment of a link that has a case in it. The form has a sum, so a link that was cut is seen.
export async function fragmentOf(kept) {
  const bytes = new TextEncoder().encode(JSON.stringify({ form: 1, ...kept }));
  return MARK + toText(await through(new CompressionStream("deflate"), bytes));
}

// The case of a fragment; null if there is none. What is no case is thrown as a sentence.
export async function caseOf(fragment) {
  if (!fragment.startsWith(MARK)) return null;
  const cut =
    "The link has no whole case in it: it was cut or changed on its way. Ask for it again.";
  let found;
  try {
    const packed = toBytes(fragment.slice(MARK.length));
    const bytes = await through(new DecompressionStream("deflate"), packed);
    if (bytes.length > MOST_IN_LINK) throw new Error(cut);
    found = JSON.parse(new TextDecoder("utf-8", { fatal: true }).decode(bytes));
  } catch {
    throw new Error(cut);
  }
  if (found?.form !== 1 || !isCase(found)) {
    throw new Error("The link is of another version of this page.");
  }
  return found;
}

const isCase = (it) =>
  typeof it?.command === "string" && typeof it.texts === "object" && it.texts !== null;

// Keeps a case in this browser; answers a sentence if it cannot.
export function keep(kept, key = KEY) {
  try {
    localStorage.setItem(key, JSON.stringify(kept));
    return "";
  } catch {
    return "This is too large to be kept in the browser, or it keeps nothing: save the files.";
  }
}

// Keeps nothing of what is typed, until something is.
export function keepNone() {
  try {
    localStorage.removeItem(KEY);
  } catch {
    // A browser that keeps nothing has nothing to forget.
  }
}

// What was kept; null if that is nothing, or no case.
export function kept(key = KEY) {
  try {
    const found = JSON.parse(localStorage.getItem(key) ?? "null");
    return isCase(found) ? found : null;
  } catch {
    return null;
  }
}

export const setAside = (it) => keep(it, BEFORE);
export const aside = () => kept(BEFORE);

export function forget() {
  try {
    localStorage.removeItem(KEY);
    localStorage.removeItem(BEFORE);
  } catch {
    // A browser that keeps nothing has nothing to forget.
  }
}

// Calls when another tab of this page keeps something.
export function whenOtherTabKeeps(call) {
  addEventListener("storage", (it) => it.key === KEY && it.newValue !== null && call());
}
