// The answer: as a text, as a table, or as a picture.

import { tableOf } from "./answers.js";
import { faultOf, statusText } from "./faults.js";
import { ROLES } from "./form.js";
import { lifeOf } from "./life.js";
import { showFault, tellOfTable } from "./marks.js";
import * as picture from "./picture.js";
import { by, say, state } from "./state.js";

const MOST_ROWS = 2000;

const MOST_SHOWN = 400000;

// Where an answer goes that is a text for the next question.
export const GOES_TO = {
  advance: "portfolio",
  novate: "portfolio",
  migrate: "portfolio",
  expand: "portfolio",
  payoff: "code",
};

export function setRunning(now) {
  state.isRunning = now;
  for (const it of ["run", "life"]) by(it).disabled = now;
  by("stop").disabled = !now;
}

// Shows what a run said. Answers whether its fault is shown in a text, where the user is led.
export function show(said) {
  state.answer = said;
  by("asked").textContent = said.command;
  tellOld();
  tellOfTable("");
  picture.clear();
  const why = said.stopped
    ? "Stopped. What you typed is still here."
    : said.trap && `No answer: ${trapText(said.trap)}`;
  if (why) {
    showNone(why);
    return false;
  }
  const { command, status, text, bytes } = said;
  const fault = faultOf(state.data, command, said.roles, status, text);
  showText(text);
  const { took } = said;
  const time = took < 1000 ? `${took.toFixed(1)} ms` : `${(took / 1000).toFixed(1)} s`;
  const meaning = `Status ${status}: ${statusText(state.data.commands, command, status)}. ${time}.`;
  by("status").textContent = fault ? `${fault.said} ${meaning}` : meaning;
  by("status").classList.toggle("fault", status !== 0);
  const table = bytes.length <= MOST_SHOWN * 10 ? tableOf(command, status, text) : null;
  state.answer.table = table;
  state.answer.picture = picture.pictureOf(command, status, text, table, "");
  by("as-table").disabled = !table?.rows.length;
  by("as-picture").disabled = !state.answer.picture;
  by("save-answer").disabled = bytes.length === 0;
  offerUse(command, status);
  // A portfolio that is left is a text, though payments stand before it.
  const isTable = table?.rows.length && !["advance", "novate"].includes(command);
  view(isTable ? "table" : "text");
  return Boolean(fault) && showFault(fault);
}

function trapText(trap) {
  if (/stack|recursion/i.test(trap)) return `the text is too deep for this browser (${trap})`;
  if (/memory|allocation/i.test(trap)) return `out of memory in this browser (${trap})`;
  return trap;
}

// Says of an answer that a text of its question has changed since.
export function tellOld() {
  const isOther = ([role, contents]) => state.editors[role].contents !== contents;
  by("old").hidden = !state.answer?.asked?.some(isOther);
}

export function showNone(said) {
  by("status").textContent = said;
  by("status").classList.add("fault");
  by("text").textContent = "";
  for (const it of ["as-table", "as-picture", "save-answer", "use-answer"]) by(it).disabled = true;
  by("use-answer").hidden = true;
  view("text");
}

function showText(text) {
  const shown = text.slice(0, MOST_SHOWN);
  const more = text.length > shown.length ? "\n.. more: save the answer to have all of it\n" : "";
  by("text").textContent = shown + more;
}

function offerUse(command, status) {
  const role = status === 0 ? GOES_TO[command] : null;
  by("use-answer").hidden = by("use-answer").disabled = !role;
  if (!role) return;
  by("use-answer").textContent = `Go on with it as the ${ROLES[role].title.toLowerCase()}`;
}

export function view(how) {
  for (const it of ["text", "table", "picture"]) {
    by(it).hidden = it !== how;
    by(`as-${it}`).setAttribute("aria-pressed", String(it === how));
  }
  by("asset-choice").hidden = how !== "picture" || (state.answer?.picture?.assets?.length ?? 0) < 2;
  if (how === "table") by("table").replaceChildren(tableElement(state.answer.table, MOST_ROWS));
  if (how === "picture") showPicture();
}

// Draws the picture of the answer anew, in another asset.
export function showAsset(asset) {
  const { command, status, text, table } = state.answer;
  state.answer.picture = picture.pictureOf(command, status, text, table, asset);
  showPicture();
}

export async function showPicture() {
  const { picture: shown } = state.answer;
  const option = (it) => new Option(it, it, false, it === shown.asset);
  by("asset").replaceChildren(...(shown.assets ?? []).map(option));
  by("numbers").replaceChildren(tableElement(picture.numbersOf(shown), MOST_ROWS));
  try {
    await picture.draw(by("canvas"), shown);
  } catch (fault) {
    say(fault.message, true);
  }
}

function tableElement({ columns, rows, title }, most) {
  const table = document.createElement("table");
  if (title) table.append(Object.assign(document.createElement("caption"), { textContent: title }));
  const head = table.createTHead().insertRow();
  for (const it of columns) {
    head.append(Object.assign(document.createElement("th"), { textContent: it, scope: "col" }));
  }
  const body = table.createTBody();
  for (const row of rows.slice(0, most)) {
    const line = body.insertRow();
    for (const it of row) {
      const cell = line.insertCell();
      cell.textContent = it;
      if (/^-?\d+(\.\d+)?$/.test(it)) cell.className = "number";
    }
  }
  if (rows.length > most) {
    const cell = body.insertRow().insertCell();
    cell.colSpan = columns.length;
    cell.textContent = `.. and ${rows.length - most} more: save the answer to have all of them`;
  }
  return table;
}

export async function life() {
  if (state.isRunning) return;
  setRunning(true);
  const { portfolio, fixings } = state.editors;
  const table = fixings.isEmpty ? ROLES.fixings.header : fixings.contents;
  const told = (it) => (by("status").textContent = `Asking for each day: ${it}.`);
  const ask = (words, files) => state.runner.run(words, files);
  const ran = await lifeOf(ask, portfolio.contents, table, told);
  setRunning(false);
  if (ran.fault) return show({ command: "flows", roles: ["portfolio", "fixings"], ...ran.fault });
  if (ran.said) return showNone(ran.said);
  state.answer = { picture: ran.picture, table: picture.numbersOf(ran.picture) };
  by("text").textContent = "";
  by("status").classList.remove("fault");
  const { title, labels } = ran.picture;
  by("status").textContent = `${title}, by advance and check of ${labels.length} days.`;
  by("as-table").disabled = by("as-picture").disabled = false;
  by("use-answer").hidden = by("save-answer").disabled = true;
  by("asked").textContent = "";
  tellOld();
  view("picture");
}
