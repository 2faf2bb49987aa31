// What an answer of the program says, as rows of a table, and as numbers of a picture. Amounts are
// the program's own; those of a picture are added up exactly, as whole numbers of the last decimal.

const COLUMNS = {
  flows: ["Contract", "Day", "Pays", "Gets", "Asset", "Amount"],
  positions: ["Day", "Party", "Asset", "Gets less pays"],
  scenarios: ["Scenario", "Value"],
  value: ["Value"],
  accepted: ["Contract", "Verdict", "Pays from day", "Decimals", "At most in all", "Over from day"],
};
COLUMNS.settle = COLUMNS.flows;
const ACCEPTED =
  /^(\S+) accepted start (\S+) scale (\d+) total (\S+) horizon (\d+)$/;
const REFUSED = /^(\S+) refused (\w+) node (\d+)$/;
const MONTH = /^(\d{4}-\d\d)-\d\d$/;
const TOTALS = 4;

const linesOf = (text) => text.split("\n").filter((it) => it);

function checkRows(text) {
  return linesOf(text).map((line) => {
    const good = ACCEPTED.exec(line);
    if (good) return [good[1], "accepted", good[2], good[3], good[4], good[5]];
    const bad = REFUSED.exec(line);
    return bad ? [bad[1], `refused: ${bad[2]}, node ${bad[3]}`, "", "", "", ""] : [line];
  });
}

// Payments that an advanced portfolio has in its comments.
function commentRows(text) {
  const found = linesOf(text).filter((it) => /^# [^,]+(,[^,]+){5}$/.test(it));
  return found.map((it) => it.slice(2).split(","));
}

// The table of an answer: its columns and its rows; null if it is a text.
export function tableOf(command, status, text) {
  if (command === "check" && (status === 0 || status === 1)) {
    return { columns: COLUMNS.accepted, rows: checkRows(text) };
  }
  if (status !== 0) return null;
  if (command === "advance" || command === "novate") {
    return { columns: COLUMNS.flows, rows: commentRows(text), title: "What is due before the day" };
  }
  const columns = COLUMNS[command];
  if (!columns) return null;
  const rows = linesOf(text).map((it) => it.split(","));
  if (command !== "scenarios") return { columns, rows };
  const shown = rows.map((it) => (it.length === 3 ? [`${it[0]}: ${it[1]}`, it[2]] : it));
  return { columns, rows: shown };
}

// A decimal as a whole number of its last decimal, and how many decimals it has.
export function decimal(text) {
  const [, sign, whole, part = ""] = /^(-?)(\d+)(?:\.(\d+))?$/.exec(text);
  return { value: BigInt(`${sign}${whole}${part}`), decimals: part.length };
}

export function decimalText(value, decimals) {
  const sign = value < 0n ? "-" : "";
  const digits = String(value < 0n ? -value : value).padStart(decimals + 1, "0");
  const at = digits.length - decimals;
  return `${sign}${digits.slice(0, at)}${decimals ? `.${digits.slice(at)}` : ""}`;
}

// What each party gets less what it pays, of lines of flows or positions: rows of a day, a party,
// an asset and an amount.
function changes(command, rows) {
  if (command === "positions") return rows;
  return rows.flatMap(([, day, payer, receiver, asset, amount]) => [
    [day, payer, asset, `-${amount}`],
    [day, receiver, asset, amount],
  ]);
}

// By month, if days are dates; else by day, or by so many days that there are not too many bars.
function spanOf(days) {
  if (days.every((it) => MONTH.test(it))) return (day) => MONTH.exec(day)[1];
  const numbers = days.map(Number);
  const width = Math.ceil((Math.max(...numbers) - Math.min(...numbers) + 1) / 40);
  if (width <= 1) return (day) => `day ${day}`;
  return (day) => `from day ${Math.floor(Number(day) / width) * width}`;
}

// Bars of a picture: labels, and for each party and asset the sum at each label, as a text.
export function bars(command, table) {
  const rows = changes(command, table.rows);
  if (!rows.length) return null;
  const span = spanOf([...new Set(rows.map(([day]) => day))]);
  const sums = new Map();
  const labels = new Map();
  for (const [day, party, asset, amount] of rows) {
    const label = span(day);
    labels.set(label, labels.size);
    const key = JSON.stringify([asset, party]);
    if (!sums.has(key)) sums.set(key, new Map());
    const { value, decimals } = decimal(amount);
    const was = sums.get(key).get(label) ?? { value: 0n, decimals };
    sums.get(key).set(label, { value: was.value + value, decimals });
  }
  const names = [...labels.keys()].sort((a, b) => order(a, b));
  const series = [...sums].map(([key, by]) => {
    const [asset, party] = JSON.parse(key);
    const { decimals } = [...by.values()][0];
    const sum = (it) => decimalText(by.get(it)?.value ?? 0n, decimals);
    return { asset, party, sums: names.map(sum) };
  });
  return { labels: names, series, assets: [...new Set(series.map((it) => it.asset))] };
}

function order(a, b) {
  const number = (it) => Number(/(\d+)$/.exec(it)[1]);
  return MONTH.test(`${a}-01`) ? (a < b ? -1 : Number(a > b)) : number(a) - number(b);
}

// How many scenarios have a value in each of some steps.
export function histogram(text, most = 24) {
  const rows = linesOf(text).map((it) => it.split(",")).slice(0, -TOTALS);
  if (!rows.length) return null;
  const { decimals } = decimal(rows[0][1]);
  const values = rows.map(([, value]) => decimal(value).value);
  const least = values.reduce((a, b) => (a < b ? a : b));
  const greatest = values.reduce((a, b) => (a > b ? a : b));
  const steps = BigInt(Math.min(most, Math.max(5, Math.ceil(Math.sqrt(rows.length)))));
  const width = (greatest - least) / steps + 1n;
  const counts = Array(Number(steps)).fill(0);
  for (const it of values) counts[Number((it - least) / width)]++;
  const labels = counts.map((_, at) => decimalText(least + BigInt(at) * width, decimals));
  return { labels, counts };
}

// Of each contract that a `check` accepts, the most that it can pay, by its name.
export function totals(text) {
  const found = new Map();
  for (const it of linesOf(text)) {
    const good = ACCEPTED.exec(it);
    if (good) found.set(good[1], good[4]);
  }
  return found;
}

// The refusals of a `check`: the contract, the rule and the node.
export function refusals(text) {
  const found = linesOf(text).map((it) => REFUSED.exec(it)).filter((it) => it);
  return found.map(([, name, rule, node]) => ({ name, rule, node }));
}
