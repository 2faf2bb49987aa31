// The commands as a form, made from the one table of commands: which texts a command takes, its
// options with what the book has for them, and the words that all of it comes to.

import { declared } from "./offers.js";

// The kinds of texts: the name of each, its file, and what stands in its editor while it is empty.
export const ROLES = {
  portfolio: {
    title: "Portfolio",
    file: "portfolio.txt",
    empty: "Type a portfolio, open a file, drop one here, or begin with an example.",
  },
  plans: {
    title: "Schedule",
    file: "plans.txt",
    empty: "Payments at regular days, which the question expand writes out. Begins: schedules 1;",
  },
  code: {
    title: "Payoff code",
    file: "code.txt",
    empty: "Ask payoff of a portfolio, and go on with its answer: that is payoff code.",
  },
  fixings: { title: "Fixings", file: "fixings.csv", header: "label,day,value\n", isTable: true },
  curve: { title: "Curve", file: "curve.csv", header: "offset,factor\n", isTable: true },
  scenarios: {
    title: "Scenarios",
    file: "scenarios.csv",
    header: "scenario,label,day,value\n",
    isTable: true,
  },
};

const NAMES = { contract: "contract", party: "party", asset: "asset", setting: "template" };
const LABELS = {
  until: "Up to the day",
  contract: "Contract",
  net: "Netted: one payment between two parties",
  to: "Up to the day",
  plain: "Count past payments too (--plain)",
  at: "On the day",
  from: "From (pays)",
  asset: "Asset",
  mean: "Rounding of the mean",
  old: "Old party",
  new: "New party",
};

function make(tag, made = {}, ...inside) {
  const found = Object.assign(document.createElement(tag), made);
  found.append(...inside);
  return found;
}

export class Form {
  // `place` gets the options, `textOf` answers the text of a role, `changed` is called on a change.
  constructor(table, place, textOf, changed) {
    this.table = table;
    this.place = place;
    this.textOf = textOf;
    this.values = {};
    // What a link or an example gave: it stays though the text has no such name, until it changes.
    this.given = {};
    this.name = "";
    place.addEventListener("input", () => {
      this.read();
      changed();
    });
  }

  get command() {
    return this.table.command.find((it) => it.name === this.name);
  }

  // The texts that a command takes, as roles in their order.
  rolesOf(command = this.command) {
    return [...(command.files ?? []), ...(command.optional ?? [])];
  }

  choose(name, values = {}) {
    this.name = name;
    this.given = { ...values };
    Object.assign(this.values, values);
    this.show();
  }

  // What the first text declares.
  names() {
    const [first] = this.rolesOf();
    return first ? declared(this.textOf(first)) : declared("");
  }

  labelOf(option) {
    if (option.name === "to" && option.takes === "party") return "To (gets)";
    if (option.name === "to" && this.name !== "value") return "The day to go on from";
    return LABELS[option.name] ?? option.name;
  }

  show() {
    const { command } = this;
    const names = this.names();
    this.shown = JSON.stringify(names);
    const fields = (command.options ?? []).map((it) => this.fieldOf(it, names));
    if (command.settings) fields.push(...this.templates(names).map((it) => this.settingOf(it)));
    if (command.number) fields.push(this.numberField());
    this.place.replaceChildren(...fields);
  }

  // Shows anew what the book has, if that is other than before.
  refresh() {
    const names = JSON.stringify(this.names());
    if (names === this.shown || this.place.contains(document.activeElement)) return;
    this.given = {};
    this.show();
  }

  // The templates that have a field: those of the text, and those that were given.
  templates(names) {
    const given = Object.keys(this.given).filter((it) => it.startsWith("="));
    return [...new Set([...names.template, ...given.map((it) => it.slice(1))])];
  }

  fieldOf(option, names) {
    const id = `option-${option.name}`;
    const value = this.values[option.name];
    if (!option.takes) {
      const made = { type: "checkbox", id, name: option.name, checked: value === true };
      const box = make("input", made);
      return make("label", { className: "flag" }, box, ` ${this.labelOf(option)}`);
    }
    const set = NAMES[option.takes];
    const kind = this.table.kind[option.takes];
    const field =
      set || kind.choices
        ? this.choice(option, set ? names[set] : kind.choices, value)
        : this.day(option, value);
    const optional = option.needed ? "" : " (if you like)";
    Object.assign(field, { id, name: option.name });
    return make("label", {}, `${this.labelOf(option)}${optional}`, field);
  }

  choice(option, all, value) {
    const field = make("select", {});
    if (!option.needed) field.add(new Option("all", ""));
    for (const it of new Set(all)) field.add(new Option(it, it));
    const isGiven = value && this.given[option.name] === value && !all.includes(value);
    if (isGiven) field.add(new Option(`${value} (not in the text)`, value));
    if (!field.options.length) field.add(new Option("the text declares none", ""));
    // A name that the text does not declare is no longer chosen. The second of two parties is not
    // the first.
    const isOther = option.takes === "party" && ["to", "new"].includes(option.name);
    const first = isOther ? (field.options[1] ?? field.options[0]) : field.options[0];
    field.value = isGiven || all.includes(value) ? value : first.value;
    return field;
  }

  day(option, value) {
    const field = make("input", {
      type: "text",
      autocomplete: "off",
      inputMode: "text",
      value: typeof value === "string" ? value : "",
      placeholder: "2026-01-05 or 90",
      title: "One to nine digits, or a date such as 2026-01-05",
    });
    field.setAttribute("pattern", "[0-9]{1,9}|[0-9]{4}-[0-9]{2}-[0-9]{2}");
    if (option.needed) field.required = true;
    return field;
  }

  settingOf(template) {
    const key = `=${template}`;
    const field = make("input", { type: "number", name: key, min: 0, max: 100000 });
    field.value = this.values[key] ?? "";
    field.placeholder = "as declared";
    return make("label", {}, `Days of ${template} (if you like)`, field);
  }

  numberField() {
    const field = make("input", { type: "number", name: "number", min: 1, max: 10000 });
    field.value = this.values.number ?? "50";
    this.values.number = field.value;
    return make("label", {}, "How many contracts", field);
  }

  read() {
    for (const it of this.place.querySelectorAll("input, select")) {
      this.values[it.name] = it.type === "checkbox" ? it.checked : it.value;
    }
  }

  // The words of the run, or a sentence that says what is missing: { words } or { lacks, field }.
  words(isEmpty) {
    const { command } = this;
    this.read();
    const words = [command.name];
    if (command.number) return { words: [...words, String(this.values.number)] };
    for (const it of command.files) words.push(ROLES[it].file);
    for (const it of command.optional ?? []) if (!isEmpty(it)) words.push(ROLES[it].file);
    if (command.settings) {
      for (const it of this.templates(this.names())) {
        const value = this.values[`=${it}`];
        if (value) words.push(`${it}=${value}`);
      }
    }
    for (const it of command.options ?? []) {
      const value = this.values[it.name];
      if (!it.takes) {
        if (value === true) words.push(`--${it.name}`);
      } else if (value) {
        words.push(`--${it.name}`, value);
      } else if (it.needed) {
        return { lacks: `${this.labelOf(it)}: say which.`, field: `option-${it.name}` };
      }
    }
    return { words };
  }

  // Takes the words of a run apart: its command, and its options by name.
  static valuesOf(table, words) {
    const command = table.command.find((it) => it.name === words[0]);
    const values = {};
    if (command.number) return { files: [], values: { number: words[1] } };
    for (const it of command.options ?? []) values[it.name] = it.takes ? "" : false;
    const files = [];
    for (let at = 1; at < words.length; at++) {
      const [, name] = /^--(\w+)$/.exec(words[at]) ?? [];
      const option = (command.options ?? []).find((it) => it.name === name);
      if (option) values[name] = option.takes ? words[++at] : true;
      else if (words[at].includes("=")) {
        const [template, days] = words[at].split("=");
        values[`=${template}`] = days;
      } else files.push(words[at]);
    }
    return { files, values };
  }
}
