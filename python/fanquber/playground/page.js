"use strict";
const by = (id) => document.getElementById(id);
const OPTIONS = ["kind", "letters", "cut", "ends"];
const EXAMPLES = {
  "ABNF: date and time (RFC 3339)": { kind: "abnf", rule: "date-time", grammar:
`; RFC 3339, section 5.6
date-fullyear  = 4DIGIT
date-month     = 2DIGIT  ; 01-12
date-mday      = 2DIGIT  ; 01-28, 01-29, 01-30, 01-31
time-hour      = 2DIGIT  ; 00-23
time-minute    = 2DIGIT  ; 00-59
time-second    = 2DIGIT  ; 00-58, 00-59, 00-60
time-secfrac   = "." 1*DIGIT
time-numoffset = ("+" / "-") time-hour ":" time-minute
time-offset    = "Z" / time-numoffset
partial-time   = time-hour ":" time-minute ":" time-second [time-secfrac]
full-date      = date-fullyear "-" date-month "-" date-mday
full-time      = partial-time time-offset
date-time      = full-date "T" full-time
`, input: "1985-04-12T23:20:50.52Z\n1996-12-19T16:39:57-08:00\n1985-4-12T23:20:50Z\n1990-12-31 23:59:60Z\n"
    + "1990-12-31T23:59:60" },
  "ABNF: heads of HTTP (RFC 9112)": { kind: "abnf", rule: "", cut: "whole", ends: "crlf", grammar:
`message    = start-line CRLF *( field CRLF ) CRLF
start-line = method SP target SP %s"HTTP/" DIGIT "." DIGIT
method     = 1*ALPHA
target     = 1*VCHAR
field      = name ":" *WSP value
name       = 1*( ALPHA / "-" )
value      = *( VCHAR / SP )
`, input: "GET /index.html HTTP/1.1\nHost: example.org\nAccept: */*\n\n" },
  "ABNF: a field's value, RFC 7230 and 9110": { kind: "abnf", rule: "", pane: "compare", old:
`; RFC 7230, section 3.2
field-value   = *( field-content / obs-fold )
field-content = field-vchar [ 1*( SP / HTAB ) field-vchar ]
field-vchar   = VCHAR / obs-text
obs-fold      = CRLF 1*( SP / HTAB )
obs-text      = %x80-FF
`, grammar:
`; RFC 9110, section 5.5
field-value   = *field-content
field-content = field-vchar
                [ 1*( SP / HTAB / field-vchar ) field-vchar ]
field-vchar   = VCHAR / obs-text
obs-text      = %x80-FF
`, input: "gzip, deflate\n a space before\n" },
  "PEG: a calculator's steps": { kind: "peg", rule: "", grammar:
`Line    <- Sum '\\n' { print }
Sum     <- Product ( '+' Product { add } / '-' Product { subtract } )*
Product <- Value ( '*' Value { multiply } / '/' Value { divide } )*
Value   <- < [0-9]+ > { push yytext } / '(' Sum ')'
`, input: "1+2*3\n(1+2)*3\n7-\n" },
};

// The secret of this server came in the address; it leaves the bar at once
if (location.hash.length > 1 && !location.hash.startsWith("#=")) {
  sessionStorage.setItem("secret", location.hash.slice(1));
  history.replaceState(null, "", location.pathname);
}

const NAME = /[A-Za-z][A-Za-z0-9-]*/;
CodeMirror.defineSimpleMode("abnf", { start: [
  { regex: /;.*/, token: "comment" },
  { regex: /%[si]"[^"]*"|"[^"]*"/i, token: "string" },
  { regex: /%[xdb][0-9A-F]+(?:(?:\.[0-9A-F]+)+|-[0-9A-F]+)?/i, token: "number" },
  { regex: /<[^>]*>/, token: "meta" },
  { regex: /([A-Za-z][A-Za-z0-9-]*)(\s*=\/?)/, token: ["def", "operator"], sol: false },
  { regex: NAME, token: "variable" },
  { regex: /\d*\*\d*|\d+|[=\/()[\]]/, token: "operator" },
] });
CodeMirror.defineSimpleMode("peg", { start: [
  { regex: /#.*/, token: "comment" },
  { regex: /'(?:\\.|[^'\\])*'|"(?:\\.|[^"\\])*"/, token: "string" },
  { regex: /\[(?:\\.|[^\]\\])*\]/, token: "string-2" },
  { regex: /\{(?:[^{}]|\{[^{}]*\})*\}/, token: "meta" },
  { regex: /([A-Za-z_]\w*)(\s*<-)/, token: ["def", "operator"] },
  { regex: /[A-Za-z_]\w*/, token: "variable" },
  { regex: /[\/&!?*+.()<>]/, token: "operator" },
] });

let annotations = [], latest = null, asked = 0, marks = [], classed = [];
// Tab goes on to the next control, so that the keyboard alone is enough
const common = { lineNumbers: true, lineWrapping: false, viewportMargin: 200,
  extraKeys: { Tab: false, "Shift-Tab": false } };
const grammar = CodeMirror(by("grammar"), { ...common, screenReaderLabel: "Grammar",
  gutters: ["CodeMirror-linenumbers", "CodeMirror-lint-markers"],
  lint: { getAnnotations: () => annotations, lintOnChange: false } });
const input = CodeMirror(by("input"), { ...common, screenReaderLabel: "Input",
  gutters: ["CodeMirror-linenumbers", "answers"] });

const old = CodeMirror(by("old"), { ...common, screenReaderLabel: "Earlier grammar", mode: "abnf" });

function question() {
  const it = Object.fromEntries(OPTIONS.map((id) => [id, by(id).value]));
  return { ...it, rule: by("rule").value, grammar: grammar.getValue(), input: input.getValue() };
}

// All of the page: the question, and what the panes add
function state() {
  return { ...question(), old: old.getValue(), "old-rule": by("old-rule").value, count: by("count").value,
    length: by("length").value, pane: shownPane() };
}

function remember() {
  const it = state();
  if (location.hash && location.hash !== linkTo(it)) history.replaceState(null, "", location.pathname);
  sessionStorage.setItem("question", JSON.stringify(it));
}

// Asks the server, and returns its answer; or shows why there is none and returns null
async function post(path, asked, isLate, say) {
  let reply;
  try {
    reply = await fetch(path, { method: "POST", body: JSON.stringify(asked),
      headers: { "Content-Type": "application/json", "X-Fanquber-Secret": sessionStorage.getItem("secret") || "" } });
  } catch { if (!isLate()) say("the server does not answer", true); return null; }
  if (isLate()) return null;  // an answer to what is no longer there
  const refused = { 403: "open the address that the server printed", 413: "too long", 503: "busy" };
  if (!reply.ok) { say(refused[reply.status] || `refused: ${reply.status}`, true); return null; }
  const answer = await reply.json();
  return isLate() ? null : answer;
}

async function ask() {
  const mine = ++asked, it = question();
  remember();
  askPane();
  by("state").textContent = "..";
  const answer = await post("/answer", it, () => mine !== asked, say);
  if (answer) { latest = answer; show(it); }
}

// All of the page as a fragment, which no browser sends to a server
function linkTo(it) {
  const bytes = Array.from(new TextEncoder().encode(JSON.stringify(it)), (byte) => String.fromCharCode(byte));
  return "#=" + btoa(bytes.join("")).replaceAll("+", "-").replaceAll("/", "_").replaceAll("=", "");
}

function linked(hash) {
  let it;
  try {
    const bytes = atob(hash.slice(2).replaceAll("-", "+").replaceAll("_", "/"));
    it = JSON.parse(new TextDecoder().decode(Uint8Array.from(bytes, (byte) => byte.charCodeAt(0))));
  } catch { return null; }
  if (!it) return null;
  const isText = (id) => typeof it[id] === "string";
  const isChoice = (id) => [...by(id).options].some((option) => option.value === it[id]);
  const orNone = (is) => (id) => it[id] === undefined || is(id);
  const isPane = it.pane === undefined || PANES.includes(it.pane);
  return isPane && ["rule", "grammar", "input"].every(isText) && OPTIONS.every(isChoice)
    && ["old", "old-rule"].every(orNone(isText)) && ["count", "length"].every(orNone(isChoice)) ? it : null;
}

function say(text, bad) { by("state").textContent = text; by("state").className = bad ? "bad" : ""; }

// Why a run came to no end
function faultOf(it) {
  return { time: "the run took too long and was ended", output: "the output is too long",
    "a signal": "the run was ended", "a fault": "the run failed" }[it.broken_by]
    || (it.status === 5 ? "out of memory" : "");
}

function show(it) {
  const broken = faultOf(latest);
  say(broken || `${latest.milliseconds} ms`, Boolean(broken));
  showRules(it.rule);
  showNotes();
  showAnswers(it);
  showDiagrams(it.kind);
  by("out").textContent = latest.out;
  by("canonical").textContent = latest.canonical;
  by("command").textContent = latest.command;
}

function showRules(chosen) {
  if (!latest.rules.length) return;
  by("rule").replaceChildren(new Option("the first", ""), ...latest.rules.map((name) => new Option(name, name)));
  const there = latest.rules.find((name) => name.toLowerCase() === chosen.toLowerCase()) || "";
  by("rule").value = there;
  if (chosen && !there) soon();  // the rule is gone: the first one takes its place
}

// Where a finding on the grammar stands: its column if it has one, else the rule's name in its line
function placeOf(finding) {
  const line = (finding.line || 1) - 1, text = grammar.getLine(line) || "";
  const before = finding.column ? unitsBefore(text, finding.column - 1, "bytes") : 0;
  if (finding.column) return [line, before, Math.max(before + 1, text.length)];
  const at = text.toLowerCase().indexOf(finding.rule.toLowerCase());
  return at < 0 || !finding.rule ? [line, 0, text.length] : [line, at, at + finding.rule.length];
}

function showNotes() {
  annotations = latest.findings.map((it) => {
    const [line, from, to] = placeOf(it);
    const message = [it.message, ...it.more].join("\n");
    return { from: { line, ch: from }, to: { line, ch: to }, severity: it.severity, message };
  });
  grammar.performLint();
  by("notes").replaceChildren(...latest.findings.map((it) => {
    const item = document.createElement("li"), button = document.createElement("button");
    item.className = it.severity;
    button.textContent = (it.line ? `line ${it.line}: ` : "") + it.message;
    button.title = it.more.join("\n");
    button.addEventListener("click", () => {
      const [line, ch] = placeOf(it);
      grammar.setCursor({ line, ch });
      grammar.focus();
    });
    item.append(button);
    return item;
  }));
}

// Letters are bytes of UTF-8, or code points; the editor counts units of UTF-16
function unitsBefore(text, letters, kind) {
  let count = 0, units = 0;
  for (const letter of text) {
    if (count >= letters) break;
    count += kind === "utf8" ? 1 : new TextEncoder().encode(letter).length;
    units += letter.length;
  }
  return units;
}

function clearAnswers() {
  marks.forEach((it) => it.clear());
  for (const it of classed)
    for (const name of ["line-yes", "line-no"]) input.removeLineClass(it, "background", name);
  input.clearGutter("answers");
  marks = []; classed = [];
}

function showAnswers(it) {
  input.operation(() => {
    clearAnswers();
    by("why").replaceChildren();
    by("derived").textContent = "";
    if (it.kind === "peg") return showStop(it);
    const answers = latest.out.split("\n").slice(0, -1);
    const yes = answers.filter((answer) => answer === "yes").length;
    if (answers.length) by("derived").textContent = `${yes} of ${answers.length} derived`;
    if (it.cut === "whole") return answers.length && showWhole(it, answers[0]);
    answers.forEach((answer, line) => {
      mark(line, answer === "yes");
      if (answer !== "yes") point(line, unitsBefore(input.getLine(line) || "", Number(answer.slice(3)), it.letters));
    });
  });
  showWhy();
}

function mark(line, good) {
  classed.push(input.addLineClass(line, "background", good ? "line-yes" : "line-no"));
  const sign = document.createElement("span");
  sign.className = "answer " + (good ? "yes" : "no");
  sign.textContent = good ? "yes" : "no";
  input.setGutterMarker(line, "answers", sign);
}

function point(line, ch) {
  const text = input.getLine(line) || "";
  if (ch < text.length) marks.push(input.markText({ line, ch }, { line, ch: ch + 1 }, { className: "wrong" }));
  else {
    const here = document.createElement("span");
    here.className = "here"; here.textContent = "\u00a0"; here.title = "something is missing here";
    marks.push(input.setBookmark({ line, ch }, { widget: here }));
  }
}

function pointAt(units, good) {
  const place = input.posFromIndex(units);
  const last = good ? input.lineCount() - 1 : place.line;
  for (let line = 0; line <= last; line++) mark(line, good || line < place.line);
  if (!good) point(place.line, place.ch);
}

// How many units of the editor stand before a letter of the input as it was judged
function unitsInInput(it, letters, kind) {
  if (it.ends !== "crlf") return unitsBefore(it.input, letters, kind);
  const text = it.input.replaceAll("\n", "\r\n");
  return text.slice(0, unitsBefore(text, letters, kind)).replace(/\r$/, "").replaceAll("\r\n", "\n").length;
}

function showWhole(it, answer) {
  pointAt(unitsInInput(it, Number(answer.slice(3)), it.letters), answer === "yes");
}

function showStop(it) {
  const stop = latest.stops[0];
  if (!stop) { if (latest.status === 0) pointAt(0, true); return; }
  const byte = /^byte (\d+)/.exec(stop.more[0] || "") || /at byte (\d+)/.exec(stop.message);
  if (byte) pointAt(unitsInInput(it, Number(byte[1]), "bytes"), false);
  by("why").textContent = reported(stop);
}

function reported(it) {
  const place = it.line ? `line ${it.line}${it.column ? `, letter ${it.column}` : ""}: ` : "";
  // What was expected of an input of peg(1) stands in lines of its own
  const said = it.code === "no-match" ? it.message.split(": expected")[0] : it.message;
  return [(it.code === "refused" ? place : "") + said, ...it.more].join("\n");
}

// What is said of the line that the cursor is on
function showWhy() {
  if (!latest || by("kind").value === "peg") return;
  const line = by("cut").value === "whole" ? 1 : input.getCursor().line + 1;
  const found = latest.stops.filter((it) => it.line === line || it.line === null);
  by("why").textContent = (found.length ? found : latest.stops.slice(0, 1)).map(reported).join("\n");
}

function showDiagrams(kind) {
  // While a grammar cannot be read, the diagrams of the one before stay, faded, unless that was of another language
  const broken = !latest.diagrams.length && latest.findings.some((it) => it.severity === "error");
  by("diagrams").classList.toggle("stale", broken);
  if (broken && by("diagrams").dataset.kind === kind) return;
  by("diagrams").dataset.kind = kind;
  by("diagrams").replaceChildren(...latest.diagrams.map(([name, svg], at) => {
    const box = document.createElement("div"), head = document.createElement("h3");
    box.id = `rule-${at}`;
    box.tabIndex = -1;
    head.textContent = name;
    const drawn = new DOMParser().parseFromString(svg, "image/svg+xml").documentElement;
    box.append(head, document.importNode(drawn, true));
    return box;
  }));
}

// The diagram of the rule that the cursor is in
function showRule() {
  if (!latest || document.activeElement && !by("grammar").contains(document.activeElement)) return;
  let line = grammar.getCursor().line, found = null;
  const defines = by("kind").value === "peg" ? /^\s*([A-Za-z_]\w*)\s*<-/ : /^\s*([A-Za-z][A-Za-z0-9-]*)\s*=/;
  while (line >= 0 && !(found = defines.exec(grammar.getLine(line)))) line--;
  const at = found ? latest.diagrams.findIndex(([name]) => name.toLowerCase() === found[1].toLowerCase()) : -1;
  by("diagrams").querySelectorAll(".now").forEach((it) => it.classList.remove("now"));
  if (at >= 0) { const box = by(`rule-${at}`); box.classList.add("now"); box.scrollIntoView({ block: "nearest" }); }
}

by("diagrams").addEventListener("click", (event) => {
  const link = event.target.closest("a");
  if (!link) return;
  event.preventDefault();
  const to = link.getAttribute("xlink:href") || link.getAttributeNS("http://www.w3.org/1999/xlink", "href");
  const box = document.querySelector(to);
  box.scrollIntoView();
  box.focus();
});

// Lines that the rule derives, and the comparison of two grammars: asked for while their pane is shown
const shownPane = () => PANES.find((id) => !by(id).hidden);
const PANE_QUESTIONS = {
  samples: ({ grammar, rule, letters, cut }) =>
    ({ grammar, rule, letters, cut, count: by("count").value, length: by("length").value }),
  compare: ({ grammar, rule, letters }) =>
    ({ old: old.getValue(), old_rule: by("old-rule").value, grammar, rule, letters }),
};
let askedPane = 0, shownFor = "", listed = [];

async function askPane() {
  const pane = shownPane(), asked = PANE_QUESTIONS[pane] && PANE_QUESTIONS[pane](question());
  const key = JSON.stringify([pane, asked]);
  if (!asked || key === shownFor) return;  // a change of the input leaves the chosen line as it is
  shownFor = key;
  const mine = ++askedPane, say = sayIn(pane);
  if (pane === "compare" && !asked.old.trim()) return showComparison({ command: "", alone: [] }, say);
  say("..");
  const it = await post(`/${pane}`, asked, () => mine !== askedPane, say);
  if (it) (pane === "samples" ? showLines : showComparison)(it, say, asked);
  else if (mine === askedPane) shownFor = "";
}

const sayIn = (pane) => (text, bad) => {
  by(`${pane}-state`).textContent = text;
  by(`${pane}-state`).className = bad ? "bad" : "";
};

// Why the run of a program has no answer
function lackOf(it) {
  if (it.missing) return `${it.missing} is not installed`;
  return faultOf(it) || ([2, 4].includes(it.status) ? it.messages.join("; ") : "");
}

function showLines(it, say, asked) {
  listed = it.lines;
  by("lines").replaceChildren(...listed.map((line) => Object.assign(new Option(), { label: quoted(line) })));
  if (listed.length) by("lines").selectedIndex = 0;
  by("samples-command").textContent = it.command;
  const all = listed.length < Number(asked.count) ? `: all of at most ${asked.length} letters` : "";
  const lack = lackOf(it), known = { 1: "the rule derives no such line", 3: "too many stacks: more lines may follow" };
  if (lack) say(listed.length ? `${lack}; these lines are right` : lack, true);
  else say(known[it.status] || `${listed.length} ${listed.length === 1 ? "line" : "lines"}${all}`);
}

function showComparison(it, say) {
  const lack = lackOf(it), which = ["the earlier", "this"];
  say(lack || it.answer || "keep this grammar, then change it above", Boolean(lack));
  by("compare-command").textContent = it.command;
  by("alone").replaceChildren(...it.alone.map(([said, line], at) => shownAlone(which[at], said, line)));
}

// What one of two grammars alone derives; a line can go into the input
function shownAlone(which, said, line) {
  const row = document.createElement("p"), button = document.createElement("button");
  row.textContent = `Only ${which} grammar derives: ${line === null ? said : ""}`;
  if (line === null) return row;
  button.type = "button"; button.textContent = said; button.title = "Put it into the input";
  button.addEventListener("click", () => add(line));
  row.append(button);
  return row;
}

// A line, whose letters are its bytes, as abnfd(1) writes it
function quoted(line) {
  const escaped = (it) => "\\x" + it.charCodeAt(0).toString(16).toUpperCase().padStart(2, "0");
  return `"${line.replace(/[^ !#-[\]-~]/g, escaped)}"`;
}

// The text of the input that is judged as this line; null if there is none
function asInput(line) {
  let text;
  try {
    const bytes = Uint8Array.from(line, (letter) => letter.charCodeAt(0));
    text = new TextDecoder("utf-8", { fatal: true, ignoreBOM: true }).decode(bytes);
  } catch { return null; }
  const whole = by("cut").value === "whole", crlf = by("ends").value === "crlf";
  const judged = crlf && !whole ? text + "\n" : text;
  const shown = crlf ? judged.replaceAll("\r\n", "\n") : judged;
  const again = crlf ? shown.replaceAll("\n", "\r\n") : shown;
  const rest = crlf && !whole ? shown.slice(0, -1) : shown;
  return again === judged && !(whole ? /[\r\0]/ : /[\r\n]/).test(rest) ? shown : null;
}

function add(line) {
  const text = asInput(line), before = input.getValue();
  if (text === null) return say("the input cannot hold this line", true);
  const start = by("cut").value === "whole" ? "" : before && !before.endsWith("\n") ? before + "\n" : before;
  input.setValue(start + text);
  input.setCursor(input.posFromIndex(start.length));
}

by("add").addEventListener("click", () => {
  const line = listed[by("lines").selectedIndex];
  if (line !== undefined) add(line);
});
by("lines").addEventListener("keydown", (event) => { if (event.key === "Enter") by("add").click(); });
by("lines").addEventListener("dblclick", () => by("add").click());
by("keep").addEventListener("click", () => { by("old-rule").value = ""; old.setValue(grammar.getValue()); });

// Tabs by the arrow keys, as the practices of ARIA have it
const PANES = ["diagrams", "out", "canonical", "samples", "compare", "command", "reference"];
function choose(id) {
  for (const other of PANES) {
    const tab = by("tab-" + other), is = other === id;
    by(other).hidden = !is;
    tab.setAttribute("aria-selected", String(is));
    tab.tabIndex = is ? 0 : -1;
  }
  if (id === "compare") old.refresh();
}
for (const [at, id] of PANES.entries()) {
  by("tab-" + id).addEventListener("click", () => { choose(id); remember(); askPane(); });
  by("tab-" + id).addEventListener("keydown", (event) => {
    const step = { ArrowRight: 1, ArrowLeft: -1 }[event.key];
    if (!step) return;
    let to = at;
    do to = (to + step + PANES.length) % PANES.length; while (by("tab-" + PANES[to]).hidden);
    by("tab-" + PANES[to]).click();
    by("tab-" + PANES[to]).focus();
  });
}

let waiting = 0, waitingPane = 0;
const soon = () => { clearTimeout(waiting); waiting = setTimeout(ask, 250); };
const soonPane = () => { clearTimeout(waitingPane); waitingPane = setTimeout(() => { remember(); askPane(); }, 250); };
grammar.on("change", soon);
input.on("change", () => { clearAnswers(); soon(); });
input.on("cursorActivity", showWhy);
grammar.on("cursorActivity", showRule);
for (const id of [...OPTIONS, "rule"]) by(id).addEventListener("change", () => { dress(); soon(); });
for (const id of ["count", "length"]) by(id).addEventListener("change", soonPane);
by("old-rule").addEventListener("input", soonPane);
old.on("change", soonPane);

function dress() {
  grammar.setOption("mode", by("kind").value);
  for (const kind of ["abnf", "peg"])
    document.querySelectorAll("." + kind).forEach((it) => { it.hidden = by("kind").value !== kind; });
  if (by("tab-" + shownPane()).hidden) choose("diagrams");
}

function load(it) {
  for (const id of [...OPTIONS, "count"]) by(id).value = it[id] || by(id).options[0].value;
  by("length").value = it.length || "64";
  by("rule").replaceChildren(new Option("the first", ""), ...(it.rule ? [new Option(it.rule, it.rule)] : []));
  by("rule").value = it.rule || "";
  by("old-rule").value = it["old-rule"] || "";
  if (it.pane) choose(it.pane);
  dress();
  old.setValue(it.old || "");
  grammar.setValue(it.grammar);
  input.setValue(it.input);
  soon();
}

for (const name of Object.keys(EXAMPLES)) by("example").append(new Option(name, name));
by("example").addEventListener("change", () => { const it = EXAMPLES[by("example").value]; if (it) load(it); });
by("link").addEventListener("click", () => history.replaceState(null, "", linkTo(state())));
window.addEventListener("hashchange", () => { const it = linked(location.hash); if (it) load(it); });
const kept = sessionStorage.getItem("question");
load(linked(location.hash) || (kept ? JSON.parse(kept) : EXAMPLES["ABNF: date and time (RFC 3339)"]));
