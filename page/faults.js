// What stopped a run, in the words of docs/FAULTS.md, and where it is.

import { placeOfFault } from "./library.js";

const ROW = /^fault row file (\d+) record (\d+) (\w+)(?: with (\d+))?\n$/;
const REFUSED = /^fault refused (\S+) (\w+) node (\d+)\n$/;

const sentence = ([wrong, cure]) => {
  const plain = (it) => it.replaceAll("`", "");
  const begun = `${plain(wrong)[0].toUpperCase()}${plain(wrong).slice(1)}.`;
  return cure ? `${begun} What to do: ${plain(cure)}.` : begun;
};

// What a status says, as commands.toml has it.
export function statusText(commands, command, status) {
  const about = commands.status[status];
  if (!about) return `status ${status}`;
  const why = commands.command.find((it) => it.name === command)?.why?.[status] ?? about.why;
  return why ? `${about.meaning}: ${why}` : about.meaning;
}

// The fault of a run: a sentence, and the place if it is one: `role` and the line and the column of
// a text, or the record of a table, or the contract that is refused. Null if the run has none.
export function faultOf({ commands, faults }, command, roles, status, text) {
  if (status === 0) return null;
  const place = placeOfFault(status, text);
  if (place) return { role: roles[0], place, said: sentence(faults.text[place.kind]) };
  const row = status === 7 && ROW.exec(text);
  if (row) {
    const role = roles[Number(row[1]) - 1];
    const kinds = faults[role] ?? faults.fixings;
    const also = row[4] ? ` (E is record ${row[4]})` : "";
    return { role, record: Number(row[2]), said: sentence(kinds[row[3]] ?? [row[3]]) + also };
  }
  const refused = status === 1 && REFUSED.exec(text);
  if (refused) {
    const rules = command === "expand" ? faults.plan : faults.rule;
    const said = `${refused[1]} breaks the rule ${refused[2]} at node ${refused[3]}. `;
    return { role: roles[0], name: refused[1], said: said + sentence(rules[refused[2]]) };
  }
  const missing = status === 8 && /^fault missing (\S+) (\S+)(?: in (\S+))?\n$/.exec(text);
  if (missing) {
    const where = missing[3] ? ` in the scenario ${missing[3]}` : "";
    return { said: `The table has no fixing of ${missing[1]} on day ${missing[2]}${where}.` };
  }
  const told = /^fault unknown (\S+)\n$/.exec(text);
  if (status === 10 && told) return { said: `${told[1]} is not declared.` };
  if (status === 1) return null;
  const about = statusText(commands, command, status);
  return { said: `${about[0].toUpperCase()}${about.slice(1)}.` };
}

export const ruleSentence = (faults, rule) => sentence(faults.rule[rule]);

// The line, from 0, at which a record of a table begins. Empty lines are no records, and a quoted
// field may have line ends in it.
export function lineOfRecord(text, record) {
  let [line, count, isQuoted, isEmpty, begins] = [0, 0, false, true, 0];
  for (const it of `${text}\n`) {
    if (isEmpty && it !== "\n" && it !== "\r") {
      [isEmpty, begins] = [false, line];
      if (++count === record) return begins;
    }
    if (it === '"') isQuoted = !isQuoted;
    if (it === "\n") {
      line++;
      if (!isQuoted) isEmpty = true;
    }
  }
  return Math.max(line - 1, 0);
}
