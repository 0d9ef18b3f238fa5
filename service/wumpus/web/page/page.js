"use strict";
// Asks as she types, and shows files, and one of them beside. All text goes into text nodes.

const WAIT = 150; // milliseconds after the last key
const FIRST = 50; // files of an answer
const MOST = 1000;
const TOKEN = "token";
const PROVED = 3000; // milliseconds for which the server is known to be the one of the token

const at = (id) => document.getElementById(id);
const query = at("query");
const files = at("files");
const pane = at("file");

const state = {
  token: null,
  provedAt: -PROVED,
  timer: 0,
  asked: null, // the question under way, which a newer one gives up
  number: FIRST,
  rows: [], // of the answer that is shown
  chosen: -1,
  opened: null,
  marks: [],
  mark: -1,
};

// ---- elements

function element(name, attributes, ...children) {
  const made = document.createElement(name);
  for (const [key, value] of Object.entries(attributes)) made.setAttribute(key, value);
  made.append(...children);
  return made;
}

function line(row) {
  const text = element("span", {});
  row.text.forEach((piece, place) => {
    text.append(place % 2 ? element("mark", {}, piece) : piece);
  });
  return element("div", { class: "row" }, element("span", {}, row.place), text);
}

function named(path) {
  const cut = path.lastIndexOf("/") + 1;
  return element("div", { class: "path" }, path.slice(0, cut), element("b", {}, path.slice(cut)));
}

function tell(text) {
  at("status").textContent = text;
}

function tellFault(text) {
  at("fault").textContent = text;
}

// ---- the server

async function call(path, value, signal) {
  await prove();
  return send(path, value, signal, { "Wumpus-Token": state.token });
}

// Where the server has ended, another user may have taken its port: nothing is told to that one.
async function prove() {
  if (!crypto.subtle || performance.now() - state.provedAt < PROVED) return;
  const bytes = new TextEncoder();
  const once = crypto.randomUUID();
  const { proof } = await send("/here", { once });
  const how = { name: "HMAC", hash: "SHA-256" };
  const key = await crypto.subtle.importKey("raw", bytes.encode(state.token), how, false, ["sign"]);
  const sign = await crypto.subtle.sign(how, key, bytes.encode(`wumpus-web is here: ${once}`));
  const due = [...new Uint8Array(sign)].map((one) => one.toString(16).padStart(2, "0")).join("");
  if (proof !== due) throw new Error("Another server answers here: close this page.");
  state.provedAt = performance.now();
}

async function send(path, value, signal, more) {
  const headers = { "Content-Type": "application/json", ...more };
  const request = { method: "POST", headers, body: JSON.stringify(value), signal };
  const reply = await fetch(path, { ...request, credentials: "omit", cache: "no-store" });
  const told = await reply.json();
  if (told.refused) throw new Error(told.refused);
  return told;
}

function gone(error) {
  if (error.name === "AbortError") return;
  const isAway = error instanceof TypeError || error instanceof SyntaxError;
  const away = "The server is gone: run wumpus-web again, and use its new link.";
  tellFault(isAway ? away : error.message);
}

async function enter() {
  const ticket = location.hash.slice(1);
  if (ticket) history.replaceState(null, "", "/");
  state.token = sessionStorage.getItem(TOKEN);
  let first = "";
  if (ticket) {
    try {
      const told = await send("/enter", { ticket });
      sessionStorage.setItem(TOKEN, told.token);
      state.token = told.token;
      first = told.query;
    } catch (error) {
      if (!state.token) return gone(error);
    }
  }
  if (!state.token) return tellFault("Open the link that wumpus-web printed: it is good once.");
  query.disabled = false;
  query.focus();
  if (first) {
    query.value = first;
    ask(false);
  }
}

// ---- questions

async function ask(isTyping) {
  clearTimeout(state.timer);
  if (state.asked) state.asked.abort();
  const typed = query.value;
  if (!typed.trim()) return clear();
  const asked = new AbortController();
  state.asked = asked;
  const question = { query: typed, number: state.number, typing: isTyping };
  try {
    const told = await call("/ask", question, asked.signal);
    if (asked === state.asked) show(told);
  } catch (error) {
    gone(error);
  }
}

function askSoon() {
  clearTimeout(state.timer);
  state.number = FIRST;
  state.timer = setTimeout(() => ask(true), WAIT);
}

function clear() {
  state.rows = [];
  choose(-1);
  files.replaceChildren();
  at("start").hidden = false;
  at("narrow").hidden = at("more").hidden = true;
  tell("");
  tellFault("");
  close();
}

function show(told) {
  if (told.superseded) return;
  if (told.fault || told.trouble) {
    const place = told.at ? ` (${told.at})` : "";
    return tellFault(told.trouble || told.fault + place);
  }
  tellFault("");
  at("start").hidden = true;
  const least = told.exact ? "" : "at least ";
  const count = `${least}${told.total} ${told.total === 1 ? "file" : "files"}`;
  tell([count, ...told.notes].join(". "));
  state.rows = told.files;
  files.replaceChildren(...told.files.map(option));
  at("more").hidden = told.files.length >= told.total || told.files.length >= MOST;
  at("directories-name").textContent = `Directories in ${told.directories.within}`;
  groups("directories", told.directories.groups);
  groups("kinds", told.kinds);
  at("narrow").hidden = !told.directories.groups.length && !told.kinds.length;
  choose(told.files.length ? Math.max(told.files.findIndex(isOpened), 0) : -1);
}

function isOpened(row) {
  return row.file === state.opened;
}

function option(row, place) {
  const made = element(
    "li", { role: "option", id: `file-${place}`, "aria-selected": "false" },
    named(row.path), ...row.lines.map(line),
  );
  if (row.note) made.append(element("div", { class: "hint" }, row.note));
  made.addEventListener("click", () => {
    choose(place);
    open();
  });
  return made;
}

function groups(id, some) {
  at(id).hidden = !some.length;
  at(id).querySelector("ul").replaceChildren(...some.map((group) => {
    const name = element(group.query ? "button" : "span", {}, group.name);
    if (group.query) {
      name.type = "button";
      name.addEventListener("click", () => {
        query.value = group.query;
        query.focus();
        state.number = FIRST;
        ask(false);
      });
    }
    return element("li", {}, name, element("span", { class: "count" }, String(group.count)));
  }));
}

// ---- files

function choose(place) {
  const before = files.children[state.chosen];
  if (before) before.setAttribute("aria-selected", "false");
  state.chosen = place;
  const now = files.children[place];
  for (const one of [query, files]) {
    if (now) one.setAttribute("aria-activedescendant", now.id);
    else one.removeAttribute("aria-activedescendant");
  }
  if (now) {
    now.setAttribute("aria-selected", "true");
    now.scrollIntoView({ block: "nearest" });
  }
}

function step(by) {
  const last = state.rows.length - 1;
  if (last < 0) return;
  choose(Math.min(Math.max(state.chosen + by, 0), last));
  if (!pane.hidden) open();
}

async function open() {
  const row = state.rows[state.chosen];
  if (!row) return;
  try {
    const told = await call("/file", { file: row.file });
    if (state.rows[state.chosen] !== row) return;
    state.opened = row.file;
    showFile(told);
  } catch (error) {
    gone(error);
  }
}

function showFile(told) {
  const wasHidden = pane.hidden;
  at("path").textContent = told.path;
  const lines = told.matches === 1 ? "1 line matches" : `${told.matches} lines match`;
  at("note").textContent = told.note || lines;
  const made = [];
  let last = 0;
  for (const row of told.lines || []) {
    if (last && row.line > last + 1) made.push(element("div", { class: "gap" }));
    made.push(line(row));
    last = row.line;
  }
  at("lines").replaceChildren(...made);
  pane.hidden = false;
  document.body.classList.add("reading");
  state.marks = [...at("lines").querySelectorAll("mark")];
  state.mark = -1;
  pane.scrollTop = 0;
  if (state.marks.length) jump(1);
  if (wasHidden) pane.focus();
}

function jump(by) {
  const count = state.marks.length;
  if (!count) return;
  const before = state.marks[state.mark];
  if (before) before.classList.remove("here");
  state.mark = (state.mark + by + count) % count;
  const now = state.marks[state.mark];
  now.classList.add("here");
  now.scrollIntoView({ block: "center" });
}

function close() {
  pane.hidden = true;
  state.opened = null;
  document.body.classList.remove("reading");
}

async function copy() {
  const row = state.rows[state.chosen];
  if (!row) return;
  try {
    await navigator.clipboard.writeText(row.path);
    tell(`copied: ${row.path}`);
  } catch {
    tell("the browser doesn't let the path be copied");
  }
}

// ---- keys

const KEYS = {
  "/": () => query.select(),
  j: () => step(1),
  k: () => step(-1),
  ArrowDown: () => step(1),
  ArrowUp: () => step(-1),
  Enter: () => open(),
  n: () => jump(1),
  N: () => jump(-1),
  c: () => copy(),
  "?": () => at("help").showModal(),
  Escape: () => back(),
};
const KEYS_IN_QUERY = ["ArrowDown", "ArrowUp", "Escape", "Enter"];

function back() {
  if (!pane.hidden) close();
  query.focus();
}

function key(event) {
  if (event.ctrlKey || event.altKey || event.metaKey || at("help").open) return;
  const isQuery = event.target === query;
  const isButton = event.target instanceof HTMLButtonElement;
  if (isQuery && !KEYS_IN_QUERY.includes(event.key)) return;
  if (isButton && event.key === "Enter") return;
  const deed = KEYS[event.key];
  if (!deed) return;
  event.preventDefault();
  if (isQuery && event.key === "Enter" && !state.rows.length) ask(false);
  else deed();
}

document.addEventListener("keydown", key);
query.addEventListener("input", askSoon);
at("search").addEventListener("submit", (event) => event.preventDefault());
at("more").addEventListener("click", () => {
  state.number = MOST;
  ask(false);
});
at("ask-help").addEventListener("click", () => at("help").showModal());
at("before").addEventListener("click", () => jump(-1));
at("next").addEventListener("click", () => jump(1));
at("copy").addEventListener("click", copy);
at("close").addEventListener("click", back);
enter();
