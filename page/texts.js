// The texts and the tables: which is shown, and how files come in and go out.

import { Editor } from "./editor.js";
import { ROLES } from "./form.js";
import { button, by, say, state } from "./state.js";

// What is called when a text changes.
let changed = () => {};

const sideOf = (role) => (ROLES[role].isTable ? "table" : "book");

export function showRole(role) {
  const side = sideOf(role);
  state.chosen[side] = role;
  for (const it of Object.keys(ROLES).filter((one) => sideOf(one) === side)) {
    by(`editor-${it}`).hidden = it !== role;
    by(`tab-${it}`).setAttribute("aria-pressed", String(it === role));
  }
  state.editors[role].editor.refresh();
  if (side === "book" && state.marker) changed(state.editors[role]);
}

// Makes an editor for each text. `whenChanged` is called on a change of one, and `offer` when a
// user asks what may stand at the cursor.
export function makeEditors(whenChanged, offer) {
  changed = whenChanged;
  for (const [role, { title, isTable, empty }] of Object.entries(ROLES)) {
    const side = sideOf(role);
    by(`${side}-tabs`).append(button(title, () => showRole(role), { id: `tab-${role}` }));
    const place = Object.assign(document.createElement("div"), { id: `editor-${role}` });
    by(`${side}-editors`).append(place);
    state.editors[role] = new Editor(role, place, {
      name: `${title}, editor`,
      isTable,
      empty,
      changed,
      offer: isTable ? null : offer,
    });
  }
  for (const side of ["book", "table"]) {
    makeTools(side);
    acceptDrops(by(`${side}-editors`).parentElement, side);
    showRole(state.chosen[side]);
  }
}

function makeTools(side) {
  const shown = () => state.chosen[side];
  const file = Object.assign(document.createElement("input"), { type: "file" });
  file.addEventListener("change", async () => {
    await takeFiles(file.files, side);
    file.value = "";
  });
  const open = Object.assign(document.createElement("label"), { className: "open" });
  open.append("Open a file", file);
  by(`${side}-tools`).append(
    open,
    button("Save", () => save(ROLES[shown()].file, state.editors[shown()].contents)),
    button("Clear", () => put(shown(), ROLES[shown()].header ?? "")),
  );
}

function acceptDrops(place, side) {
  place.addEventListener("dragover", (it) => {
    it.preventDefault();
    place.classList.add("dropping");
  });
  place.addEventListener("dragleave", () => place.classList.remove("dropping"));
  place.addEventListener("drop", (it) => {
    it.preventDefault();
    place.classList.remove("dropping");
    takeFiles(it.dataTransfer.files, side);
  });
}

// What a file is, by how it begins; or else what the place of it is for.
function roleOf(bytes, side) {
  const front = new TextDecoder().decode(bytes.subarray(0, 4000)).replace(/^\uFEFF/, "");
  const first = front.replace(/#[^\n]*\n/g, "").trimStart();
  if (/^portfolio\b/.test(first)) return "portfolio";
  if (/^schedules\b/.test(first)) return "plans";
  if (/^payoff\b/.test(first)) return "code";
  if (/^scenario,/.test(first)) return "scenarios";
  if (/^offset,/.test(first)) return "curve";
  if (/^label,/.test(first)) return "fixings";
  return state.chosen[side];
}

async function takeFiles(files, side) {
  for (const file of files) {
    try {
      const bytes = new Uint8Array(await file.arrayBuffer());
      const role = roleOf(bytes, side);
      put(role, bytes);
      showRole(role);
      say(`${file.name} is the ${ROLES[role].title.toLowerCase()} now.`);
    } catch (fault) {
      say(`${file.name} cannot be read: ${fault.message}`, true);
    }
  }
}

export function put(role, contents) {
  state.editors[role].take(contents);
  changed(state.editors[role]);
}

export function save(name, contents) {
  const url = URL.createObjectURL(new Blob([contents], { type: "text/plain" }));
  Object.assign(document.createElement("a"), { href: url, download: name }).click();
  setTimeout(() => URL.revokeObjectURL(url), 10000);
}

// Whether a text is left out where it may be: it is empty, or a table with its header alone.
export function isEmpty(role) {
  const { isEmpty: nothing, held, text } = state.editors[role];
  return nothing || (!held && ROLES[role].header?.trim() === text.trim());
}
