// The examples: each run of the tutorial and the cookbook, with its texts.

import { Form, ROLES } from "./form.js";
import { button, by, state } from "./state.js";
import { put } from "./texts.js";

// What chooses a question, and what takes an example and asks it.
let ask = null;

// Fills the list of examples. `choose` takes a command and its options, and `take` what loads one.
export function fillRecipes(choose, take) {
  ask = { choose, take };
  for (const [at, { page, sections }] of state.data.recipes.pages.entries()) {
    const group = Object.assign(document.createElement("optgroup"), { label: page });
    for (const it of Object.keys(sections)) group.append(new Option(it, JSON.stringify([at, it])));
    by("recipe").append(group);
  }
  by("recipe").addEventListener("change", () => {
    if (by("recipe").value) showRuns(...JSON.parse(by("recipe").value));
    else by("runs").replaceChildren();
  });
}

export function showRuns(page, section) {
  const { runs, sections } = state.data.recipes.pages[page];
  const shorter = (it) => it.replace(/^.*\//, "");
  by("runs").replaceChildren(
    ...sections[section].map((number) =>
      button(runs[number].words.map(shorter).join(" "), () => loadRun(page, number)),
    ),
  );
  return loadRun(page, sections[section][0]);
}

// The text of each file of a run; what an earlier run prints is made by that run.
async function textsOf(page, number) {
  const run = state.data.recipes.pages[page].runs[number];
  const texts = {};
  const all = state.data.recipes.texts;
  for (const [name, text] of Object.entries(run.files)) texts[name] = all[text];
  for (const [name, earlier] of Object.entries(run.made)) {
    const made = await answerOf(page, earlier);
    texts[name] = made.text;
  }
  return texts;
}

async function answerOf(page, number) {
  const { words } = state.data.recipes.pages[page].runs[number];
  return state.runner.run(words, Object.entries(await textsOf(page, number)));
}

export async function loadRun(page, number) {
  if (state.isRunning) return;
  const { words } = state.data.recipes.pages[page].runs[number];
  const texts = await textsOf(page, number);
  const { commands } = state.data;
  const { files, values } = Form.valuesOf(commands, words);
  await ask.take(() => putRun({ words, files, values, texts }));
}

function putRun({ words, files, values, texts }) {
  const { commands } = state.data;
  const roles = state.form.rolesOf(commands.command.find((it) => it.name === words[0]));
  // The tables of another example are not this one's.
  for (const [role, { isTable, header }] of Object.entries(ROLES)) if (isTable) put(role, header);
  for (const [at, name] of files.entries()) put(roles[at], texts[name] ?? "");
  state.form.values = {};
  ask.choose(words[0], values);
}
