// The marks of a text while it is typed: faults, refused contracts, and what may stand at a place.

import { refusals } from "./answers.js";
import { faultOf, lineOfRecord, ruleSentence } from "./faults.js";
import { ROLES } from "./form.js";
import { tokens } from "./offers.js";
import { button, by, say, state } from "./state.js";
import { showRole } from "./texts.js";

/* global CodeMirror */

const EMPTY = [["none.csv", ""]];

// The words by which the program is asked whether a text parses.
function wordsToParse(role) {
  const { file } = ROLES[role];
  if (role === "plans") return ["expand", file];
  if (role === "portfolio") return ["check", file];
  const options = ["--at", "0", "--from", "a_", "--to", "b_", "--asset", "c_"];
  return ["value", file, "none.csv", "none.csv", ...options];
}

export async function mark(editor) {
  const { role } = editor;
  // What is told below the texts is of the one that is shown.
  if (ROLES[role].isTable || role !== state.chosen.book) return;
  const text = editor.contents;
  if (editor.isEmpty) return tell(null);
  const words = wordsToParse(role);
  const said = await state.marker.run(words, [[ROLES[role].file, text], ...EMPTY]);
  if (said.dropped || said.stopped || editor.contents !== text) return;
  showMarks(editor, words[0], said);
}

function showMarks(editor, command, said) {
  editor.clearMarks();
  if (said.trap) return tell(null);
  const fault = said.status === 6 && faultOf(state.data, command, [editor.role], 6, said.text);
  if (fault) {
    if (editor.held) return tell(fault.said, fault.place);
    const place = editor.markFault(fault.place, fault.said);
    tell(fault.said, fault.place);
    return offersAt(editor, place);
  }
  tell(null);
  if (command === "check") {
    const refused = refusals(said.text);
    for (const { name, rule, node } of refused) {
      const where = `${name} breaks the rule ${rule} at node ${node}.`;
      editor.markContract(name, `${where} ${ruleSentence(state.data.faults, rule)}`);
    }
    if (refused.length) {
      const [{ name, rule }] = refused;
      tell(`${name} breaks the rule ${rule}. ${ruleSentence(state.data.faults, rule)}`);
    }
  }
}

export function tell(said, place) {
  const where = place ? `Line ${place.line}, column ${place.column}: ` : "";
  by("fault").textContent = said ? where + said : "";
  if (!said || !place) showOffers(null);
}

// Tells a fault of a table, below the tables.
export function tellOfTable(said) {
  by("table-fault").textContent = said;
}

// Marks a fault in its text, and answers whether it is in one that can be shown.
export function showFault({ role, place, record, name, said }) {
  const editor = state.editors[role];
  if (!editor || editor.held) return false;
  editor.clearMarks();
  showRole(role);
  let at = null;
  if (place) at = editor.markFault(place, said);
  else if (record) at = editor.markLine(lineOfRecord(editor.text, record), said);
  else if (name) at = editor.markContract(name, said);
  if (ROLES[role].isTable) tellOfTable(`Line ${(at?.line ?? 0) + 1}: ${said}`);
  else tell(said, place);
  if (at) editor.goTo(at);
  if (place) offersAt(editor, at);
  return at !== null;
}

async function offersAt(editor, place) {
  const { contents } = editor;
  const found = await askOffers(editor, editor.before(place));
  // What was typed meanwhile has places of its own.
  if (found && editor.contents === contents) showOffers({ editor, place, found });
}

// The worker chooses what is tried behind the text: of a long one that takes longer than a key.
async function askOffers(editor, text) {
  const words = wordsToParse(editor.role);
  const name = ROLES[editor.role].file;
  const said = await state.marker.ask({ words, name, text, language: state.data.language });
  return said.found ?? null;
}

export function showOffers(shown) {
  const place = by("offers");
  if (!shown) return place.replaceChildren();
  const { editor, place: at, found } = shown;
  const head = Object.assign(document.createElement("p"), {
    textContent: found.length ? "There may stand:" : "Nothing may stand there: look before it.",
  });
  const buttons = found.map((it) =>
    it.isKind
      ? Object.assign(document.createElement("p"), { textContent: it.shown })
      : button(it.shown, () => insert(editor, at, it.text), { title: `Put ${it.shown} there` }),
  );
  place.replaceChildren(head, ...buttons);
}

// Puts a token at a place; a mark that ends something goes behind the token before.
function insert(editor, place, text) {
  const at = /^[;,)]$/.test(text) ? endBefore(editor, place) : place;
  const before = editor.editor.getRange({ line: at.line, ch: Math.max(at.ch - 1, 0) }, at);
  const after = editor.editor.getRange(at, { line: at.line, ch: at.ch + 1 });
  const open = /\w/.test(before) && /\w/.test(text[0]) ? " " : "";
  const close = /\w/.test(after) && /\w/.test(text.at(-1)) ? " " : "";
  editor.editor.replaceRange(open + text + close, at);
  editor.goTo({ line: at.line, ch: at.ch + open.length + text.length });
}

// Where the token before a place ends.
function endBefore(editor, place) {
  const text = editor.before(place);
  const last = [...tokens(text)].at(-1);
  return last ? editor.editor.posFromIndex(last.index + last[0].length) : place;
}

// What may stand at the cursor, by the keys Control and space.
export async function offerAtCursor(editor) {
  const cursor = editor.editor.getCursor();
  const line = editor.editor.getLine(cursor.line).slice(0, cursor.ch);
  const begun = /\w*$/.exec(line)[0];
  const from = { line: cursor.line, ch: cursor.ch - begun.length };
  const found = await askOffers(editor, editor.before(from));
  if (!found) return;
  const fitting = found.filter((it) => !it.isKind && it.text.startsWith(begun));
  const list = fitting.map((it) => ({ text: it.text, displayText: it.shown }));
  const kinds = found.filter((it) => it.isKind).map((it) => it.shown);
  if (!list.length) {
    return say(kinds.length ? `There may stand ${kinds.join(", ")}.` : "Nothing may stand there.");
  }
  CodeMirror.showHint(editor.editor, () => ({ list, from, to: cursor }), { completeSingle: false });
}
