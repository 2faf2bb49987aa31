// The editors of texts and tables: CodeMirror with the words of the language, marks of faults, and
// files that are too large to be edited, which are held as they are.

/* global CodeMirror */

// A text beyond this is held as it is: an editor of so much would be slow.
export const MOST_EDITED = 2000000;

const GROUPS = {
  keyword: `portfolio payoff schedules amounts origin start party asset num flag in template
    contract code`,
  builtin: `zero pay both scale after let none add cut obs model neg not min max widen round div
    acc`,
  "variable-2": "if within then else loop upto",
  atom: "half_even half_away floor ceil true false",
};

// The languages' colours: comments, dates, numbers, words, names and marks.
export function defineModes(language) {
  const reserved = new Set(language.words.concat("schedules"));
  const styles = new Map();
  for (const [style, words] of Object.entries(GROUPS)) {
    for (const it of words.split(/\s+/)) if (reserved.has(it)) styles.set(it, style);
  }
  const start = [
    { regex: /#.*/, token: "comment" },
    { regex: /\d{4}-\d\d-\d\d(?!\d)|\d+(?:\.\d+)?/, token: "number" },
    { regex: /[A-Za-z_]\w*/, token: (match) => styles.get(match[0]) ?? "variable" },
    { regex: /\.\.|[<>!]=|[-;,:=()+*<>&|]/, token: "operator" },
  ];
  CodeMirror.defineSimpleMode("tilugba", { start, meta: { lineComment: "#" } });
  const cells = [
    { regex: /^[A-Za-z_,]*(label|offset)[A-Za-z_,]*$/, token: "keyword" },
    { regex: /[^,]+/, token: "variable" },
    { regex: /,/, token: "operator" },
  ];
  CodeMirror.defineSimpleMode("tilugba-table", { start: cells });
}

const encoder = new TextEncoder();

// The place in the editor of a column that counts bytes.
function charAt(line, column) {
  const bytes = encoder.encode(line).subarray(0, column - 1);
  return new TextDecoder().decode(bytes).length;
}

export class Editor {
  // `role` is the text's kind, `place` where the editor goes, `changed` what is called on a change.
  constructor(role, place, { name, isTable, empty, changed, offer }) {
    this.role = role;
    this.name = name;
    this.held = null;
    this.marks = [];
    this.note = document.createElement("p");
    this.note.className = "held";
    this.note.hidden = true;
    this.editor = CodeMirror(place, {
      mode: isTable ? "tilugba-table" : "tilugba",
      lineNumbers: true,
      matchBrackets: !isTable,
      inputStyle: "contenteditable",
      screenReaderLabel: name,
      dragDrop: false,
      lineWrapping: false,
      gutters: ["CodeMirror-linenumbers", "faults"],
      placeholder: empty ?? "Type, paste from a spreadsheet, or open a file.",
      viewportMargin: 20,
      extraKeys: {
        // The key goes on to the next part of the page, for those who use no mouse.
        Tab: false,
        "Shift-Tab": false,
        "Ctrl-/": "toggleComment",
        "Cmd-/": "toggleComment",
        ...(offer ? { "Ctrl-Space": () => offer(this) } : {}),
      },
    });
    place.append(this.note);
    this.editor.on("change", (_, change) => {
      if (change.origin !== "setValue") changed(this);
    });
    if (isTable) this.editor.on("beforeChange", (_, change) => asTable(change));
  }

  get text() {
    return this.held ? "" : this.editor.getValue();
  }

  // What a run is given: the text, or the bytes that are held.
  get contents() {
    return this.held ?? this.editor.getValue();
  }

  get isEmpty() {
    return this.held ? this.held.length === 0 : this.editor.getValue().trim() === "";
  }

  // Takes a text, or bytes. What is too large or no UTF-8 is held as it is.
  take(contents) {
    this.clearMarks();
    const isText = typeof contents === "string";
    let text = isText ? contents : null;
    if (!isText && contents.length <= MOST_EDITED) {
      try {
        text = new TextDecoder("utf-8", { fatal: true, ignoreBOM: true }).decode(contents);
      } catch {
        text = null;
      }
    }
    if (text !== null && (text.length > MOST_EDITED || text.includes("\r"))) text = null;
    this.held = text === null ? (isText ? encoder.encode(contents) : contents) : null;
    this.editor.setValue(text ?? "");
    this.editor.clearHistory();
    this.editor.setOption("readOnly", this.held !== null);
    this.note.hidden = this.held === null;
    if (this.held) {
      const size = this.held.length.toLocaleString("en");
      this.note.textContent =
        `A file of ${size} bytes is held as it is: too large to edit here, or no plain text. ` +
        "It is run as it is. Clear takes it away.";
    }
  }

  clearMarks() {
    for (const it of this.marks) it.clear();
    this.marks = [];
    this.editor.clearGutter("faults");
  }

  // Marks a place, lines from 0 and characters from 0, with what is said of it.
  mark(line, from, to, said, kind = "fault") {
    const end = this.editor.getLine(line)?.length ?? 0;
    const isBehind = from >= end;
    const begin = isBehind ? Math.max(end - 1, 0) : from;
    const stop = isBehind ? end : Math.max(to, from + 1);
    const how = { className: `mark-${kind}`, title: said };
    this.marks.push(this.editor.markText({ line, ch: begin }, { line, ch: stop }, how));
    const sign = document.createElement("span");
    sign.className = `sign-${kind}`;
    sign.textContent = "●";
    sign.title = said;
    this.editor.setGutterMarker(line, "faults", sign);
  }

  // Marks the place of a fault, as the program counts it, and answers where it is in the editor.
  markFault({ line, column }, said) {
    const last = this.editor.lastLine();
    const at = Math.min(line - 1, last);
    const text = this.editor.getLine(at);
    const ch = line - 1 > last ? text.length : charAt(text, column);
    const token = /^(?:\w+|\.\.|[<>!]=|.)/.exec(text.slice(ch))?.[0] ?? "";
    this.mark(at, ch, ch + token.length, said);
    return { line: at, ch };
  }

  markLine(line, said) {
    const at = Math.min(line, this.editor.lastLine());
    this.mark(at, 0, this.editor.getLine(at).length, said);
    return { line: at, ch: 0 };
  }

  // Marks the name of a contract.
  markContract(name, said) {
    const defined = `\\b(?:contract|code|leg|swap|guarded)\\s+${name}\\b`;
    const found = new RegExp(defined).exec(this.text);
    if (!found) return null;
    const end = this.editor.posFromIndex(found.index + found[0].length);
    this.mark(end.line, end.ch - name.length, end.ch, said, "refusal");
    return { line: end.line, ch: end.ch - name.length };
  }

  // The text up to a place.
  before(place) {
    return this.editor.getRange({ line: 0, ch: 0 }, place);
  }

  goTo(place) {
    this.editor.focus();
    this.editor.setCursor(place);
    this.editor.scrollIntoView(place, 60);
  }
}

// What is pasted from a spreadsheet has tabs between its cells, and perhaps a decimal comma, which
// is left as it is: the program says so.
function asTable(change) {
  if (change.origin !== "paste") return;
  const row = (it) => it.split("\t").map(cell).join(",");
  const lines = change.text.map((it) => (it.includes("\t") ? row(it) : it));
  change.update(change.from, change.to, lines);
}

function cell(text) {
  const plain = text.trim();
  return /[",]/.test(plain) ? `"${plain.replaceAll('"', '""')}"` : plain;
}
