// The page: what is pressed, and what is kept.

import { defineModes } from "./editor.js";
import { fillRecipes, loadRun, showRuns } from "./examples.js";
import { Form, ROLES } from "./form.js";
import * as keeping from "./keeping.js";
import { mark, offerAtCursor, showOffers, tell, tellOfTable } from "./marks.js";
import { Runner } from "./runner.js";
import * as shown from "./shown.js";
import { by, button, say, state } from "./state.js";
import { isEmpty, makeEditors, put, save, showRole } from "./texts.js";

// Milliseconds without a change, after which faults are marked, after which the form has the names
// of the text, and after which a text is kept. Either of the last two reads all of a long text.
const PAUSE = 80;

const NAMES_AFTER = 350;

const KEEP_AFTER = 500;

const LONG_LINK = 8000;

const FIRST = ["Tutorial", "What is observed"];

const pausing = new Map();

let namesSoon;

let keepingSoon;

function changed(editor) {
  clearTimeout(pausing.get(editor.role));
  clearTimeout(namesSoon);
  clearTimeout(keepingSoon);
  editor.clearMarks();
  if (ROLES[editor.role].isTable) tellOfTable("");
  else showOffers(null);
  pausing.set(
    editor.role,
    setTimeout(() => mark(editor), PAUSE),
  );
  namesSoon = setTimeout(() => {
    state.form.refresh();
    showWords();
    shown.tellOld();
  }, NAMES_AFTER);
  keepingSoon = setTimeout(keepAll, KEEP_AFTER);
}

// The question, its options and all texts that are not held as they are.
function current() {
  const texts = {};
  for (const [role, it] of Object.entries(state.editors)) if (!it.held) texts[role] = it.text;
  return { command: state.form.name, values: state.form.values, texts };
}

// The case of a link, or an example, as it was taken. It is not kept before it is changed: what was
// typed before would be lost by it.
let untouched = "";

// Whether a text that was typed is set aside for an example.
let hasAside = false;

function keepAll() {
  const isHeld = Object.values(state.editors).some((it) => it.held);
  const now = current();
  if (untouched && JSON.stringify(now) === untouched) return;
  untouched = "";
  if (Object.keys(ROLES).every(isEmpty)) return keeping.keepNone();
  const fault = keeping.keep(now);
  if (fault) say(fault, true);
  else if (isHeld) say("The file that is held is not kept in the browser when the page is closed.");
  else if (by("message").textContent.startsWith("Forgotten")) say("");
}

function fillForm() {
  for (const { name, short } of state.data.commands.command) {
    by("command").add(new Option(`${name}: ${short}`, name));
  }
  const textOf = (role) => state.editors[role].text;
  state.form = new Form(state.data.commands, by("options"), textOf, () => {
    showWords();
    clearTimeout(keepingSoon);
    keepingSoon = setTimeout(keepAll, KEEP_AFTER);
  });
  by("command").addEventListener("change", () => choose(by("command").value));
}

function choose(name, values = {}) {
  by("command").value = name;
  state.form.choose(name, values);
  by("about").textContent = state.form.command.about.trim().replaceAll("--net", "Netted");
  for (const role of state.form.rolesOf().reverse()) showRole(role);
  by("life").hidden = !["flows", "advance", "check"].includes(name);
  showWords();
}

function showWords() {
  const { words } = state.form.words(isEmpty);
  by("words").textContent = words ? `tilugba ${words.join(" ")}` : "";
  by("line").hidden = !words;
}

const filesOf = (roles) => roles.map((it) => [ROLES[it].file, state.editors[it].contents]);

// Whether the page has begun: what is asked from then on a user has asked.
let hasBegun = false;

// Runs what the form says. What a user asks is shown where the user looks.
async function run() {
  if (state.isRunning) return;
  const { words, lacks, field } = state.form.words(isEmpty);
  if (!words) {
    say(lacks, true);
    by(field)?.focus();
    return;
  }
  say("");
  const roles = state.form.rolesOf().filter((it) => words.includes(ROLES[it].file));
  const atRun = document.activeElement === by("run");
  shown.setRunning(true);
  by("status").textContent = "Running.";
  const asked = state.form.rolesOf().map((it) => [it, state.editors[it].contents]);
  const said = await state.runner.run(words, filesOf(roles));
  shown.setRunning(false);
  // A button that is off for a moment loses the keyboard, which then goes on from elsewhere.
  if (atRun && document.activeElement === document.body) by("run").focus({ preventScroll: true });
  const isInText = shown.show({ command: words[0], words, roles, asked, ...said });
  if (hasBegun && !isInText) by("answer").scrollIntoView({ block: "nearest" });
}

async function copyLink() {
  const texts = {};
  for (const role of state.form.rolesOf()) {
    if (state.editors[role].held) {
      return say("A file that is held as it is does not go into a link.", true);
    }
    texts[role] = state.editors[role].text;
  }
  state.form.read();
  const { name, values } = state.form;
  const fragment = await keeping.fragmentOf({ command: name, values, texts });
  const url = `${location.href.split("#")[0]}${fragment}`;
  history.replaceState(null, "", fragment);
  const long = url.length > LONG_LINK ? " It is long: some programs cut such links." : "";
  try {
    await navigator.clipboard.writeText(url);
    say(`The link is copied, with all that this question takes.${long}`);
  } catch {
    say(`The link stands in the address line, with all that this question takes.${long}`);
  }
}

const commandOf = (name) => state.data.commands.command.find((it) => it.name === name);

// Takes a case. A text of its question that it does not have is empty: what stood there is not its.
function takeCase({ command, values, texts }) {
  const about = commandOf(command);
  if (!about) throw new Error("The link names no command of this page.");
  for (const role of state.form.rolesOf(about)) put(role, ROLES[role].header ?? "");
  for (const role of Object.keys(ROLES)) {
    if (typeof texts[role] === "string") put(role, texts[role]);
  }
  state.form.values = {};
  choose(command, typeof values === "object" && values !== null ? values : {});
}

// Begins with the case of a link, or with what was kept, or with the first example.
async function begin() {
  const kept = keeping.kept();
  const before = kept && commandOf(kept.command) ? kept : null;
  try {
    const linked = await keeping.caseOf(location.hash);
    if (linked) {
      takeCase(linked);
      untouched = JSON.stringify(current());
      if (before) keeping.setAside(before);
      await run();
      return tellOf("This is the case of the link. Its answer is below.", before);
    }
    if (before) {
      takeCase(before);
      return say("What you typed before is here again: it was kept in this browser alone.");
    }
  } catch (fault) {
    say(fault.message, true);
    if (before) return takeCase(before);
  }
  const page = state.data.recipes.pages.findIndex((it) => it.page === FIRST[0]);
  const number = state.data.recipes.pages[page].sections[FIRST[1]].at(-1);
  by("recipe").value = JSON.stringify([page, FIRST[1]]);
  const [told, isFault] = [by("message").textContent, by("message").classList.contains("fault")];
  await showRuns(page, FIRST[1]);
  await loadRun(page, number);
  if (isFault) say(told, true);
}

// Says what case it is, unless its run says what is missing; with a button for what was set aside.
function tellOf(said, isAside) {
  if (by("message").textContent) return;
  say(isAside ? `${said} ` : said);
  if (isAside) by("message").append(button("Bring back what I had", bringBack));
}

// Takes an example, by `load`. What a user has typed is set aside.
async function takeExample(load) {
  const now = current();
  const isOwn = JSON.stringify(now) !== untouched && !Object.keys(ROLES).every(isEmpty);
  if (isOwn) hasAside = !keeping.setAside(now);
  await load();
  untouched = JSON.stringify(current());
  await run();
  if (hasAside) tellOf("This is an example.", true);
}

function bringBack() {
  const before = keeping.aside();
  hasAside = false;
  if (before) takeCase(before);
  history.replaceState(null, "", location.pathname);
  say("What you had is here again.");
}

function forget() {
  clearTimeout(keepingSoon);
  for (const [role, it] of Object.entries(state.editors)) it.take(ROLES[role].header ?? "");
  keeping.forget();
  hasAside = false;
  history.replaceState(null, "", location.pathname);
  state.answer = null;
  by("asked").textContent = "";
  shown.showNone("Nothing was asked yet.");
  shown.tellOld();
  by("status").classList.remove("fault");
  tell(null);
  tellOfTable("");
  state.form.values = {};
  choose("check");
  clearTimeout(keepingSoon);
  say("Forgotten: this browser keeps nothing of what you typed.");
}

function lacking() {
  const needed = ["WebAssembly", "Worker", "BigInt", "CompressionStream", "DecompressionStream"];
  const missing = needed.filter((it) => !globalThis[it]);
  if (!missing.length) return "";
  const cure = "take Firefox, Chrome, Edge or Safari of 2023 or later";
  return `This browser lacks ${missing.join(", ")}: ${cure}.`;
}

async function fetched(name) {
  const got = await fetch(name);
  if (!got.ok) throw new Error(`${name} is not there (status ${got.status})`);
  return got;
}

async function load() {
  const names = ["commands", "language", "faults", "made", "recipes"];
  const texts = names.map(async (it) => {
    state.data[it] = await (await fetched(`${it}.json`)).json();
  });
  const bytes = fetched("tilugba.wasm").then((it) => it.arrayBuffer());
  const module = bytes.then((it) => WebAssembly.compile(it));
  const [found] = await Promise.all([module, ...texts]);
  return found;
}

function showMade() {
  const { version, commit, sources, toolchain, proved } = state.data.made;
  const of = commit ? `commit ${commit}` : "sources without a commit";
  const ofSources = `sources ${sources.slice(0, 16)}`;
  by("made").textContent = `version ${version}, ${of}, ${ofSources}, by ${toolchain}`;
  by("proved").textContent = proved
    ? "This one was."
    : "This one was not: its module was compiled with nothing proved, for a trial.";
}

function listen() {
  by("run").addEventListener("click", run);
  by("stop").addEventListener("click", () => state.runner.stop());
  by("life").addEventListener("click", shown.life);
  by("link").addEventListener("click", copyLink);
  by("forget").addEventListener("click", forget);
  for (const it of ["text", "table", "picture"]) {
    by(`as-${it}`).addEventListener("click", () => shown.view(it));
  }
  by("asset").addEventListener("change", () => shown.showAsset(by("asset").value));
  by("save-answer").addEventListener("click", () => {
    const { command, bytes } = state.answer;
    save(`${command}.txt`, bytes);
  });
  by("use-answer").addEventListener("click", () => {
    const role = shown.GOES_TO[state.answer.command];
    put(role, state.answer.bytes);
    showRole(role);
    say(`The answer is the ${ROLES[role].title.toLowerCase()} now.`);
  });
  addEventListener("keydown", (it) => {
    if (it.key === "Enter" && (it.ctrlKey || it.metaKey)) run();
  });
  addEventListener("hashchange", () => location.hash && begin());
  addEventListener("dragover", (it) => it.preventDefault());
  addEventListener("drop", (it) => it.preventDefault());
  keeping.whenOtherTabKeeps(() =>
    say("This page is open in another tab too. The browser keeps what was typed last, in either."),
  );
  matchMedia("(prefers-color-scheme: dark)").addEventListener("change", () => {
    if (!by("picture").hidden) shown.showPicture();
  });
}

async function start() {
  const missing = lacking();
  if (missing) return say(missing, true);
  let module;
  try {
    module = await load();
    defineModes(state.data.language);
    makeEditors(changed, offerAtCursor);
    fillForm();
    fillRecipes(choose, takeExample);
    showMade();
    listen();
    choose("check");
    state.runner = new Runner(module);
    state.marker = new Runner(module);
  } catch (fault) {
    const cure = "Load the page again when the network is there.";
    return say(`The program could not be loaded: ${fault.message}. ${cure}`, true);
  }
  for (const it of ["run", "life"]) by(it).disabled = false;
  say("");
  await begin();
  hasBegun = true;
  document.documentElement.dataset.ready = "true";
}

start();
