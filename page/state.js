// What the parts of the page share: what was fetched, the editors, the form, the workers, and the
// answer that is shown.

export const state = {
  // What the page was built with: commands, the words of the language, sentences, recipes.
  data: {},
  // The editors by the roles of their texts, and which is shown on either side.
  editors: {},
  chosen: { book: "portfolio", table: "fixings" },
  form: null,
  // The worker of runs, and the one of marks.
  runner: null,
  marker: null,
  answer: null,
  isRunning: false,
};

export const by = (id) => document.getElementById(id);

export function say(text, isFault = false) {
  by("message").textContent = text;
  by("message").classList.toggle("fault", isFault);
}

export function button(text, press, made = {}) {
  const found = Object.assign(document.createElement("button"), { textContent: text, ...made });
  found.addEventListener("click", press);
  return found;
}
