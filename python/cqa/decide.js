"use strict";
// A page on which conflicts are settled. The data stands in the element `data`; what is picked is a list of acts, of which the last
// one on a key counts. Nothing is sent anywhere: acts are kept in the browser, and saved as a script.

const data = JSON.parse(document.getElementById("data").textContent);
const tables = data.tables;
const keys = data.keys;
const NONE = -1;          // none of the rows is right
const LEFT = -2;          // the key is left as it is
const SHOWN = 100;        // so many keys of the list stand in the page at a time
const room = "cqa-decide:" + tables.map((table) => table.told).join("");

const state = { acts: [], picked: new Map(), shown: [], at: 0, isKept: true };
const at = (id) => document.getElementById(id);

// What is picked.

/** Takes an act into what is picked: by key the number of its row, or NONE. */
function take(act) {
  for (const [key, row] of act.rows) {
    if (row === LEFT) state.picked.delete(key);
    else state.picked.set(key, row);
  }
}

function pickAnew() {
  state.picked = new Map();
  state.acts.forEach(take);
}

function act(made) {
  state.acts.push(made);
  take(made);
  keep();
  show();
}

function keep() {
  try {
    localStorage.setItem(room, JSON.stringify(state.acts));
    state.isKept = true;
  } catch (fault) {
    state.isKept = false;
  }
}

/** The acts that an earlier visit left, if they are of this page's keys. */
function found() {
  try {
    const acts = JSON.parse(localStorage.getItem(room) || "[]");
    return acts.filter((one) => one.rows.every(([key, row]) => keys[key] && row < keys[key].rows.length));
  } catch (fault) {
    return [];
  }
}

function current() {
  return state.shown[state.at];
}

function pick(row) {
  const key = current();
  if (key === undefined || row >= keys[key].rows.length) return;
  act({ rows: [[key, row]] });
  say(row === LEFT ? "Left as it is" : row === NONE ? "None of these rows" : "Row " + (row + 1));
  if (row !== LEFT) move(1);
}

function undo() {
  const last = state.acts.pop();
  if (!last) return say("Nothing to undo");
  pickAnew();
  keep();
  const to = state.shown.indexOf(last.rows[0][0]);
  if (to >= 0) state.at = to;
  show();
  say("Undone");
}

/** The row of a key that comes from a source, if it is the only one. */
function rowOf(key, source) {
  const column = tables[keys[key].table].source;
  const rows = keys[key].rows.flatMap((row, number) => (row[column] === source ? [number] : []));
  return rows.length === 1 ? rows[0] : undefined;
}

/** Takes the rows of a source in all keys that are shown and not decided yet: where these are all keys of a table, as a rule. */
function takeSource() {
  const source = at("source").value;
  const chosen = state.shown.filter((key) => tables[keys[key].table].source !== null && !state.picked.has(key));
  const rows = chosen.map((key) => [key, rowOf(key, source)]).filter(([, row]) => row !== undefined);
  if (!source || rows.length === 0) return say("No key that is shown has one row of this source");
  const table = keys[rows[0][0]].table;
  const all = keys.flatMap((key, number) => (key.table === table ? [number] : []));
  const isRule = !isFiltered() && rows.every(([key]) => keys[key].table === table) && all.every((key) => chosen.includes(key) || state.picked.has(key));
  act(isRule ? { rows, rule: { table, source } } : { rows });
  say(rows.length + " keys decided by source " + source);
}

// What is shown.

function isFiltered() {
  return Boolean(at("search").value || at("column").value || at("state").value !== "all");
}

function passes(key, number) {
  const table = tables[key.table];
  const word = at("search").value.toLowerCase();
  const wanted = at("state").value;
  const column = at("column").value;
  const source = at("source").value;
  if (at("table").value && table.name !== at("table").value) return false;
  if (column && !key.differs.some((one) => table.columns[one] === column)) return false;
  if (source && !(table.source !== null && key.rows.some((row) => row[table.source] === source))) return false;
  if (wanted === "open" ? state.picked.has(number) : wanted === "decided" ? !state.picked.has(number) : false) return false;
  return !word || key.rows.some((row) => row.some((value) => value.toLowerCase().includes(word)));
}

function filter() {
  const before = current();
  state.shown = keys.flatMap((key, number) => (passes(key, number) ? [number] : []));
  state.at = Math.max(0, state.shown.indexOf(before));
  show();
}

function move(by) {
  state.at = Math.min(Math.max(0, state.at + by), Math.max(0, state.shown.length - 1));
  show();
}

function element(name, attributes, ...children) {
  const made = document.createElement(name);
  for (const [attribute, value] of Object.entries(attributes)) made.setAttribute(attribute, value);
  made.append(...children);
  return made;
}

function valueText(value) {
  const made = element("bdi", {}, value === "" ? "(empty)" : value.replace(/[\u0000-\u001f\u007f-\u009f\u200b-\u200f\u2028-\u202e\u2060-\u2069\ufeff]/g,
    (sign) => (sign === "\n" ? "\\n\n" : "\\u" + sign.codePointAt(0).toString(16).padStart(4, "0"))));
  if (value === "") made.className = "quiet";
  return made;
}

function keyText(key) {
  return tables[key.table].name + " " + key.key.join(", ");
}

function markOf(number) {
  const row = state.picked.get(number);
  return row === undefined ? "" : row === NONE ? "none" : "row " + (row + 1);
}

function listItem(number, place) {
  const key = keys[number];
  const made = element("button", { type: "button", class: "key" + (place === state.at ? " current" : "") + (state.picked.has(number) ? " decided" : "") },
    element("bdi", { class: "name" }, keyText(key)), element("span", { class: "mark" }, markOf(number)), element("span", { class: "quiet" }, key.matters));
  if (place === state.at) made.setAttribute("aria-current", "true");
  made.addEventListener("click", () => { state.at = place; show(); });
  return element("li", {}, made);
}

/** A head before the first of the keys on which no question hangs. */
function headOf(place) {
  const isLast = (at) => keys[state.shown[at]].matters === "";
  const isFirst = data.questions.length > 0 && isLast(place) && (place === 0 || !isLast(place - 1));
  return isFirst ? [element("li", { class: "head" }, element("h3", {}, "No question hangs on these"))] : [];
}

function showList() {
  const first = Math.max(0, Math.min(state.at - SHOWN / 2, state.shown.length - SHOWN));
  const items = state.shown.slice(first, first + SHOWN).flatMap((number, place) => [...headOf(first + place), listItem(number, first + place)]);
  at("list").replaceChildren(...items);
  at("above").textContent = first > 0 ? first + " more above" : "";
  const below = Math.max(0, state.shown.length - first - SHOWN);
  at("below").textContent = below > 0 ? below + " more below" : "";
  const now = at("list").querySelector(".current");
  if (now) now.scrollIntoView({ block: "nearest" });
}

function rowLine(number, row, place) {
  const key = keys[number];
  const isPicked = state.picked.get(number) === place;
  const button = element("button", { type: "button", class: "pick", "aria-pressed": String(isPicked), "aria-label": "Row " + (place + 1) + " is right" }, String(place + 1));
  button.addEventListener("click", () => pick(place));
  const cells = row.map((value, column) => element("td", { class: key.differs.includes(column) ? "odd" : "" }, valueText(value)));
  return element("tr", { class: isPicked ? "picked" : "" }, element("td", {}, button), ...cells);
}

function showKey() {
  const number = current();
  const card = at("card");
  if (number === undefined) return card.replaceChildren(element("p", {}, keys.length ? "No key is shown: change the filter." : "No key is in conflict."));
  const key = keys[number];
  const columns = tables[key.table].columns;
  const head = element("tr", {}, element("td", {}), ...columns.map((name) => element("th", { scope: "col" }, name)));
  const rows = element("table", {}, element("thead", {}, head), element("tbody", {}, ...key.rows.map((row, place) => rowLine(number, row, place))));
  const none = element("button", { type: "button", class: "pick", "aria-pressed": String(state.picked.get(number) === NONE) }, "None of these");
  none.addEventListener("click", () => pick(NONE));
  const leave = element("button", { type: "button", class: "pick", "aria-pressed": String(!state.picked.has(number)) }, "Leave it");
  leave.addEventListener("click", () => pick(LEFT));
  card.replaceChildren(element("h2", {}, element("bdi", {}, keyText(key))), element("p", { class: "quiet" }, key.matters || "No question hangs on this key."),
    element("div", { class: "wide" }, rows), element("p", { class: "acts" }, none, " ", leave), ...hangs(key));
}

function hangs(key) {
  if (!key.hangs.length) return [];
  const items = key.hangs.map(([question, what]) => element("li", {}, element("code", {}, data.questions[question]), " ", valueText(what)));
  return [element("h3", {}, "What hangs on it"), element("ul", {}, ...items)];
}

function show() {
  const open = keys.length - state.picked.size;
  at("left").textContent = open + " of " + keys.length + " keys are left";
  at("kept").textContent = state.isKept ? "" : "This browser keeps nothing: save before you close the page.";
  at("undo").disabled = state.acts.length === 0;
  showList();
  showKey();
  at("script").value = at("saved").open ? script() : "";
}

function say(text) {
  at("said").textContent = text;
}

// The script.

function literal(kind, value) {
  if (kind === "text") return "'" + value.replace(/'/g, "''") + "'";
  return kind === "int" ? value : BigInt(value.replace(".", "")).toString();
}

function tests(table, row, columns) {
  return columns.map((column) => table.columns[column] + " = " + literal(table.kinds[column], row[column])).join(" and ");
}

function remark(text) {
  return "-- decided: " + text.replace(/[\r\n]+/g, " ") + "\n";
}

function decision(number, row) {
  const key = keys[number];
  const table = tables[key.table];
  const all = table.columns.map((_, column) => column);
  if (row === NONE) return remark(keyText(key) + ": none of its rows") + "delete from " + table.name + " where " + tests(table, key.rows[0], table.key) + ";\n";
  const others = key.rows.filter((_, place) => place !== row);
  return remark(keyText(key) + ": (" + key.rows[row].join(", ") + ")") +
    others.map((other) => "delete from " + table.name + " where " + tests(table, other, all) + ";\n").join("");
}

/** The rules whose keys are all as they left them, or decided by a later act; the others are written key by key. */
function rules() {
  const isWhole = (one) => one.rule && keys.every((key, number) => key.table !== one.rule.table || state.picked.has(number) || rowOf(number, one.rule.source) === undefined);
  return state.acts.filter(isWhole);
}

function script() {
  const kept = rules();
  const ruled = new Map(kept.flatMap((one) => one.rows.map(([key, row]) => [key, row])));
  const picked = [...state.picked].filter(([key, row]) => ruled.get(key) !== row).sort(([a], [b]) => a - b);
  const touched = new Set([...state.picked.keys()].map((key) => keys[key].table));
  const heads = [...touched].sort((a, b) => a - b).map((one) => tables[one].told);
  const prefers = kept.map(({ rule: { table, source } }) => {
    const { name, columns, source: column } = tables[table];
    return remark("where a key has a row of source " + source + ", that one") + "prefer " + name + " where " + columns[column] + " = " + literal("text", source) + ";\n";
  });
  return heads.join("") + picked.map(([key, row]) => decision(key, row)).join("") + prefers.join("");
}

function save() {
  const link = element("a", { href: URL.createObjectURL(new Blob([script()], { type: "text/plain" })), download: "decided.cqa" });
  link.click();
  setTimeout(() => URL.revokeObjectURL(link.href), 60000);
  say(state.picked.size + " decisions saved");
}

function throwAway() {
  if (!state.acts.length || !confirm("Throw away all " + state.picked.size + " decisions?")) return;
  state.acts = [];
  pickAnew();
  keep();
  show();
  say("Thrown away");
}

// The page.

const WORDS = { j: () => move(1), ArrowDown: () => move(1), k: () => move(-1), ArrowUp: () => move(-1), u: undo, s: save, 0: () => pick(NONE), n: () => pick(NONE),
  x: () => pick(LEFT), "/": () => at("search").focus() };

document.addEventListener("keydown", (event) => {
  if (event.key === "Escape") return document.activeElement.blur();
  if (event.ctrlKey || event.metaKey || event.altKey || event.target.closest("input, select, textarea")) return;
  const done = /^[1-9]$/.test(event.key) ? () => pick(Number(event.key) - 1) : WORDS[event.key];
  if (!done) return;
  event.preventDefault();
  done();
});

function choices(id, values) {
  at(id).append(...values.map((value) => element("option", { value }, value)));
}

choices("table", tables.map((table) => table.name));
choices("column", [...new Set(keys.flatMap((key) => key.differs.map((column) => tables[key.table].columns[column])))].sort());
choices("source", [...new Set(keys.flatMap((key) => (tables[key.table].source === null ? [] : key.rows.map((row) => row[tables[key.table].source]))))].sort());
for (const id of ["table", "column", "source", "state"]) at(id).addEventListener("change", filter);
at("search").addEventListener("input", filter);
at("takeSource").addEventListener("click", takeSource);
at("undo").addEventListener("click", undo);
at("save").addEventListener("click", save);
at("throwAway").addEventListener("click", throwAway);
at("saved").addEventListener("toggle", show);
at("takeSource").hidden = tables.every((table) => table.source === null);
state.acts = found();
pickAnew();
filter();
