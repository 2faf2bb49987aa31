// Pictures of answers, by Chart.js. Their numbers stand below as a table, for those who see none.

import { bars, histogram } from "./answers.js";

/* global Chart */

// Colours that are told apart with any eyes (Okabe and Ito, 2008).
const COLOURS = "#0072b2 #d55e00 #009e73 #cc79a7 #e69f00 #56b4e9 #7a6a00 #888888".split(" ");
let shown = null;
let loading = null;

// Fetches Chart.js when the first picture is asked for.
function load() {
  loading ??= new Promise((done, fail) => {
    const script = document.createElement("script");
    script.src = "chart.js/chart.min.js";
    script.onload = done;
    script.onerror = () => {
      loading = null;
      fail(new Error("What draws could not be fetched: try it again when the network is there."));
    };
    document.head.append(script);
  });
  return loading;
}

const exactly = ({ label, exact }, at) => ` ${label}: ${exact[at]}`;
const colourOf = (name) => getComputedStyle(document.documentElement).getPropertyValue(name).trim();

function options(title, isStacked, unit) {
  const [text, line] = [colourOf("--text"), colourOf("--line")];
  const axis = (label) => ({
    stacked: isStacked,
    ticks: { color: text },
    grid: { color: line },
    title: { display: Boolean(label), text: label, color: text },
  });
  return {
    animation: false,
    responsive: true,
    maintainAspectRatio: false,
    scales: { x: axis(""), y: axis(unit) },
    plugins: {
      legend: { labels: { color: text } },
      title: { display: true, text: title, color: text },
      tooltip: { callbacks: { label: ({ dataset, dataIndex }) => exactly(dataset, dataIndex) } },
    },
  };
}

// What a picture shows: its kind, title, labels, and series with their exact texts.
export function pictureOf(command, status, text, table, asset) {
  if (status !== 0 || !table) return null;
  if (command === "scenarios") {
    const found = histogram(text);
    return found && {
      type: "bar",
      title: "How many scenarios have a value from here on",
      labels: found.labels,
      unit: "scenarios",
      series: [{ label: "scenarios", exact: found.counts.map(String) }],
    };
  }
  if (!["flows", "settle", "positions", "advance", "novate"].includes(command)) return null;
  const found = bars(command, table);
  if (!found) return null;
  const chosen = found.assets.includes(asset) ? asset : found.assets[0];
  const series = found.series.filter((it) => it.asset === chosen);
  return {
    type: "bar",
    title: `What each party gets less what it pays, in ${chosen}`,
    labels: found.labels,
    unit: chosen,
    assets: found.assets,
    asset: chosen,
    series: series.map((it) => ({ label: it.party, exact: it.sums })),
  };
}

export async function draw(canvas, picture) {
  await load();
  shown?.destroy();
  const datasets = picture.series.map((it, at) => ({
    label: it.label,
    exact: it.exact,
    data: it.exact.map(Number),
    backgroundColor: COLOURS[at % COLOURS.length],
    borderColor: COLOURS[at % COLOURS.length],
    borderWidth: picture.type === "line" ? 2 : 0,
    stepped: picture.type === "line",
    pointRadius: 2,
  }));
  shown = new Chart(canvas, {
    type: picture.type,
    data: { labels: picture.labels, datasets },
    options: options(picture.title, false, picture.unit),
  });
  canvas.setAttribute("role", "img");
  canvas.setAttribute("aria-label", `${picture.title}. Its numbers are in the table below.`);
}

export function clear() {
  shown?.destroy();
  shown = null;
}

// The numbers of a picture, as a table.
export function numbersOf(picture) {
  const columns = ["", ...picture.series.map((it) => it.label)];
  const rows = picture.labels.map((it, at) => [it, ...picture.series.map((one) => one.exact[at])]);
  return { columns, rows };
}
