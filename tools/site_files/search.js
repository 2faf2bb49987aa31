// Finds sections of the pages by the words of a query. The index is a script of its own, so that it works on pages opened from disk.
"use strict";

const MOST = 30;
const AROUND = 90;
const field = document.getElementById("search");
const main = document.querySelector("main");
const root = document.body.dataset.root;
const page = main.innerHTML;

function words(query) {
  return query.toLowerCase().split(/\s+/).filter((word) => word.length > 0);
}

// How well a section fits: nothing if a word is missing, more if words are in its heading or that of its page.
function rank(section, wanted) {
  const heading = section.heading.toLowerCase();
  const all = `${heading} ${section.page.toLowerCase()} ${section.text.toLowerCase()}`;
  if (!wanted.every((word) => all.includes(word))) return 0;
  return 1 + 10 * wanted.filter((word) => heading.includes(word)).length;
}

// A piece of text with each of the words marked.
function marked(text, wanted) {
  const piece = document.createDocumentFragment();
  const escaped = wanted.map((word) => word.replace(/[.*+?^${}()|[\]\\]/g, "\\$&"));
  for (const part of text.split(new RegExp(`(${escaped.join("|")})`, "i"))) {
    const node = wanted.includes(part.toLowerCase()) ? document.createElement("mark") : document.createElement("span");
    node.textContent = part;
    piece.append(node);
  }
  return piece;
}

// The text around the first of the words, from the beginning of a word to the end of one.
function snippet(section, wanted) {
  const text = section.text;
  const places = wanted.map((word) => text.toLowerCase().indexOf(word)).filter((place) => place >= 0);
  const first = places.length > 0 ? Math.min(...places) : 0;
  const from = first <= AROUND ? 0 : text.indexOf(" ", first - AROUND) + 1;
  const end = text.indexOf(" ", first + 2 * AROUND);
  return (from > 0 ? "\u2026 " : "") + (end < 0 ? text.slice(from) : text.slice(from, end) + " \u2026");
}

function line(section, wanted) {
  const item = document.createElement("li");
  const link = document.createElement("a");
  link.className = "where";
  link.href = root + section.url;
  link.append(marked(section.heading === section.page ? section.page : `${section.page}: ${section.heading}`, wanted));
  const text = document.createElement("div");
  text.className = "text";
  text.append(marked(snippet(section, wanted), wanted));
  item.append(link, text);
  return item;
}

function show(query) {
  const wanted = words(query);
  if (wanted.length === 0) {
    main.innerHTML = page;
    return;
  }
  const found = SECTIONS.map((section) => [rank(section, wanted), section]).filter(([fit]) => fit > 0);
  found.sort((one, other) => other[0] - one[0]);
  const heading = document.createElement("h1");
  heading.textContent = `${found.length} ${found.length === 1 ? "section" : "sections"} with ${query}`;
  const list = document.createElement("ul");
  list.id = "found";
  list.append(...found.slice(0, MOST).map(([, section]) => line(section, wanted)));
  main.replaceChildren(heading, list);
}

const asked = new URLSearchParams(location.search).get("q");
if (asked) {
  field.value = asked;
  show(asked);
}
field.addEventListener("input", () => show(field.value));
// A link to a section of the same page leads back to the page.
main.addEventListener("click", (event) => {
  const link = event.target.closest("#found a");
  if (link && link.pathname === location.pathname) {
    field.value = "";
    main.innerHTML = page;
  }
});
