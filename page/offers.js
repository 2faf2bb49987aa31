// What may stand at a place of a text, found by asking the program: a candidate may stand there if
// the text up to the place with the candidate behind it has no fault, or its first fault is behind
// the candidate.

// Tokens of the languages: a comment, a date, a number, a name, a mark, or a single character.
const TOKEN =
  /#[^\n]*|\d{4}-\d\d-\d\d(?!\d)|\d+(?:\.\d+)?|[A-Za-z_]\w*|\.\.|[<>!]=|[^\s]/g;
const NEW_NAME = "a_new_name";
const LONG = 2000;
const MOST_NAMES = 200;

const isName = (it) => /^[A-Za-z_]\w*$/.test(it);

export function* tokens(text) {
  for (const it of text.matchAll(TOKEN)) if (!it[0].startsWith("#")) yield it;
}

// Where the statements of a text end: behind each `;` that is in no comment.
function endsOfStatements(text) {
  const found = [];
  for (const it of tokens(text)) if (it[0] === ";") found.push(it.index + 1);
  return found;
}

// A long text up to a place, without the definitions that are complete: those of contracts and
// plans need not each other.
export function shortened(text) {
  if (text.length < LONG) return text;
  const ends = endsOfStatements(text);
  const isDefinition = (it) => /^\s*(contract|leg|swap|guarded)\b/.test(text.slice(it, it + 80));
  const first = ends.findIndex(isDefinition);
  const last = ends.at(-1);
  if (first < 0 || ends[first] >= last) return text;
  return text.slice(0, ends[first]) + text.slice(last);
}

// Words that begin a statement, by what it declares.
const KINDS = {
  num: "label",
  flag: "label",
  leg: "contract",
  swap: "contract",
  guarded: "contract",
};

// The names that a text declares: `party A, B;` and the like.
export function declared(text) {
  const names = { party: [], asset: [], label: [], template: [], contract: [] };
  let kind = "";
  let isFresh = true;
  for (const [it] of tokens(text)) {
    if (isFresh) {
      kind = KINDS[it] ?? it;
      isFresh = false;
    } else if (it === ";") {
      isFresh = true;
    } else if (it === "=" || it === "against") {
      kind = "";
    } else if (names[kind] && isName(it)) {
      if (it !== "in") names[kind].push(it);
      if (kind !== "party" && kind !== "asset") kind = "";
    }
  }
  return names;
}

// What is tried at the end of a text. `language` has its words and marks.
export function candidatesFor(text, language) {
  const words = /^\s*schedules\b/.test(withoutComments(text))
    ? [...new Set([...language.words, ...language.plans])]
    : [...language.words, "schedules"];
  const names = declared(text);
  const inStatement = [...tokens(text.slice(endsOfStatements(text).at(-1) ?? 0))].map(([it]) => it);
  const known = new Set([...Object.values(names).flat(), ...inStatement.filter(isName)]);
  for (const it of words) known.delete(it);
  return [
    ...words.map((it) => ({ text: it, shown: it })),
    ...language.marks.map((it) => ({ text: it, shown: it })),
    ...[...known].slice(0, MOST_NAMES).map((it) => ({ text: it, shown: it })),
    { text: NEW_NAME, shown: "a new name", isKind: true },
    { text: "1", shown: "a whole number", isKind: true },
    { text: "1.5", shown: "a number", isKind: true },
    { text: "2026-01-05", shown: "a date", isKind: true },
  ];
}

function withoutComments(text) {
  return text.replace(/#[^\n]*/g, "");
}

// The place of the first byte behind a text, as faults count: lines from 1, bytes from 1.
function endOf(text) {
  const lines = text.split("\n");
  const bytes = new TextEncoder().encode(lines.at(-1)).length;
  return { line: lines.length, column: bytes + 1 };
}

// Whether a candidate may stand at the end of a text. `ask` answers the place of the first fault of
// a text, or null.
export function fits(ask, text, candidate) {
  const joined = `${text}${/\w$/.test(text) && /^\w/.test(candidate) ? " " : ""}${candidate}`;
  const fault = ask(joined);
  if (!fault) return true;
  const end = endOf(joined);
  return fault.line > end.line || (fault.line === end.line && fault.column >= end.column);
}
