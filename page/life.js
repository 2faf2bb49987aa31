// The life of contracts: the portfolio is advanced to each day on which it pays, and the program
// says of what is left how much it can pay at most.

import { tableOf, totals } from "./answers.js";

const MOST_DAYS = 48;

// Some of many, evenly, with the first and the last.
function some(all, most) {
  if (all.length <= most) return all;
  const step = (all.length - 1) / (most - 1);
  return Array.from({ length: most }, (_, at) => all[Math.round(at * step)]);
}

// `run` runs words over files. Answers a picture, or a sentence, or the run that had a fault.
export async function lifeOf(run, portfolio, fixings, told) {
  const files = [["portfolio.txt", portfolio], ["fixings.csv", fixings]];
  const paid = await run(["flows", "portfolio.txt", "fixings.csv"], files);
  if (paid.status !== 0) return { fault: paid };
  const { rows } = tableOf("flows", 0, paid.text);
  const days = some([...new Set(rows.map(([, day]) => day))].sort(byDay), MOST_DAYS);
  const labels = [];
  const left = new Map();
  for (const [at, day] of days.entries()) {
    told(`day ${at + 1} of ${days.length}`);
    const later = await run(["advance", "portfolio.txt", "fixings.csv", "--to", day], files);
    if (later.status !== 0) return { fault: later };
    const checked = await run(["check", "left.txt"], [["left.txt", later.text]]);
    if (checked.status !== 0) return { fault: checked };
    labels.push(day);
    for (const [name, total] of totals(checked.text)) {
      if (!left.has(name)) left.set(name, []);
      left.get(name)[at] = total;
    }
  }
  if (!labels.length) return { said: "The portfolio pays nothing over these fixings." };
  const series = [...left].map(([label, sums]) => ({
    label,
    exact: labels.map((_, at) => sums[at] ?? "0"),
  }));
  const title = "The most that is left to pay, on each day on which something is paid";
  return { picture: { type: "line", title, labels, unit: "at most", series } };
}

function byDay(a, b) {
  return /^\d+$/.test(a) ? Number(a) - Number(b) : a < b ? -1 : Number(a > b);
}
