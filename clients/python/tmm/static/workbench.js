// The page of the workbench: the script with a reply under each line, and what stands after one of them.
// The server keeps the map; this module gives it the text, and shows what it answers.

const ROW = 40;
// so many lines past the last one in sight are answered with an edit, and the others after it
const AHEAD = 40;
// for so many ms after an edit nothing is drawn
const QUIET = 100;
const SVG = "image/svg+xml";

const byId = (id) => document.getElementById(id);
const script = byId("script");
const slider = byId("at");

const state = {
  map: "",
  // the text of the reply to each line, "" for none, undefined where it is still to come
  replies: [],
  // so many first lines have theirs
  answered: 0,
  count: 0,
  // the line after which things are shown; `follow` keeps it at the end
  at: 0,
  follow: true,
  // the refused line whose cycle is drawn, 0 for none
  cycle: 0,
  chosen: [],
  // names in the steps that are shown, for the network
  steps: new Set(),
  file: null,
};

// ---- calls

async function call(name, fields) {
  const response = await fetch(name, {
    method: "POST",
    headers: { "Content-Type": "application/json" },
    body: JSON.stringify(fields),
  });
  const value = await response.json();
  if (!response.ok) {
    const error = new Error(value.error);
    error.status = response.status;
    throw error;
  }
  return value;
}

function tell(text, fault = false) {
  byId("status").textContent = text;
  byId("status").classList.toggle("fault", fault);
}

// What is to be done; one call runs at a time, and what is wanted meanwhile is done once after it.
const wanted = { edit: 0, view: false };
let running = false;

async function work() {
  if (running) return;
  running = true;
  try {
    while (wanted.edit || wanted.view) {
      try {
        if (wanted.edit) await edit();
        else await view();
      } catch (error) {
        tell(error.message, true);
        // What is shown may be of another script, and all of it is asked for again.
        state.replies = [];
        state.answered = 0;
        drawRows();
      }
    }
  } finally {
    running = false;
  }
}

async function edit() {
  const since = wanted.edit;
  wanted.edit = 0;
  wanted.view = false;
  const last = Math.ceil((script.scrollTop + script.clientHeight) / ROW) + AHEAD;
  let told = await call("edit", { map: state.map, script: script.value, upto: last });
  const first = told.first;
  state.count = told.count;
  state.answered = Math.min(state.answered, first);
  state.replies.length = state.answered;
  slider.max = told.count;
  if (state.follow || state.at > told.count) state.at = told.count;
  take(told);
  const taken = Math.round(performance.now() - since);
  tell(`answered in ${taken} ms`);
  document.body.dataset.answered = taken;
  state.cycle = isCycle(state.replies[first]) ? first + 1 : 0;
  while (!wanted.edit && state.answered < state.count) {
    told = await call("rest", { map: state.map, first: state.answered });
    take(told);
  }
  // Who types on is not to wait for a drawing.
  await new Promise((resolve) => setTimeout(resolve, QUIET));
  wanted.view = true;
}

function take(told) {
  told.replies.forEach((reply, place) => (state.replies[told.first + place] = reply));
  if (told.first <= state.answered) state.answered = told.first + told.replies.length;
  drawRows();
}

async function view() {
  wanted.view = false;
  const bars = byId("bars").value.split(",").map((bar) => bar.trim().split(/\s+/)).filter((bar) => bar[0]);
  const rows = byId("only").value.trim().split(/[\s,]+/).filter(Boolean);
  const shown = await call("view", {
    map: state.map,
    at: state.at,
    cycle: state.cycle <= state.at ? state.cycle : 0,
    whole: byId("whole").checked,
    bars,
    rows,
    one_row: byId("one-row").checked,
  });
  setDrawing("picture", shown.picture);
  setDrawing("network", shown.network);
  const list = byId("broken");
  list.replaceChildren(...shown.broken.map(brokenItem));
  if (!shown.broken.length) list.append(element("li", "none", "none"));
  byId("repairs").textContent = "";
  drawRows();
  drawReply();
  mark();
  document.body.dataset.shown = state.at;
}

// ---- the script and its replies

function isRefused(reply) {
  return /^\d+ (no .|memory)/.test(reply || "");
}

function isCycle(reply) {
  return /^\d+ no cycle/.test(reply || "");
}

// Only the rows in sight are there.
function drawRows() {
  const first = Math.max(0, Math.floor(script.scrollTop / ROW) - 2);
  const last = Math.min(state.count, Math.ceil((script.scrollTop + script.clientHeight) / ROW) + 2);
  const rows = [];
  for (let line = first; line < last; line++) rows.push(rowOf(line));
  byId("rows").replaceChildren(...rows);
  byId("rows").style.transform = `translateY(${-script.scrollTop}px)`;
  slider.value = state.at;
  byId("after").textContent = state.at;
}

function rowOf(line) {
  const row = element("div", "row");
  row.style.top = `${line * ROW}px`;
  row.dataset.line = line + 1;
  const reply = state.replies[line];
  row.classList.toggle("at", line + 1 === state.at);
  row.classList.toggle("refused", isRefused(reply));
  row.append(element("span", "number", String(line + 1)));
  if (reply) {
    const told = element("div", isRefused(reply) ? "told refused" : "told");
    // the first line without its number, and the details behind it
    reply.split("\n").slice(0, 12).forEach((part, place) => {
      const text = place ? ` · ${part.trim()}` : part.replace(/^\d+ /, "");
      told.append(replyPart(part, text));
    });
    row.append(told);
  }
  return row;
}

// A part of a reply; a broken protection is red, and can be clicked.
function replyPart(part, text) {
  const words = part.trim().split(" ");
  const shown = element("span", "", text);
  if (part.startsWith("  ") && words[0] === "broken") {
    shown.className = "broken";
    shown.dataset.protection = words[1];
  }
  return shown;
}

function drawReply() {
  const reply = state.replies[state.at - 1] || "";
  const box = byId("reply");
  box.classList.toggle("refused", isRefused(reply));
  box.replaceChildren(...reply.split("\n").map((part) => replyPart(part, `${part}\n`)));
}

byId("rows").addEventListener("click", (event) => {
  const line = Number(event.target.closest(".row").dataset.line);
  if (event.target.dataset.protection) askRepairs(event.target.dataset.protection);
  showAt(line);
});

byId("reply").addEventListener("click", (event) => {
  if (event.target.dataset.protection) askRepairs(event.target.dataset.protection);
});

script.addEventListener("input", () => {
  wanted.edit = wanted.edit || performance.now();
  work();
});

script.addEventListener("scroll", drawRows);
window.addEventListener("resize", drawRows);

// The server gets ready for an edit of the line that the cursor comes to.
let ready = 0;
document.addEventListener("selectionchange", () => {
  if (document.activeElement !== script || !state.map) return;
  const line = script.value.slice(0, script.selectionStart).split("\n").length;
  if (line === ready) return;
  ready = line;
  call("prepare", { map: state.map, line }).catch((error) => tell(error.message, true));
});

// ---- after a line

function showAt(line) {
  state.at = line;
  state.cycle = isCycle(state.replies[line - 1]) ? line : 0;
  state.follow = line === state.count;
  drawRows();
  wanted.view = true;
  work();
}

slider.addEventListener("input", () => {
  const line = Number(slider.value);
  const top = (line - 1) * ROW;
  if (top < script.scrollTop || top + ROW > script.scrollTop + script.clientHeight) {
    script.scrollTop = top - script.clientHeight / 2;
  }
  showAt(line);
});

for (const id of ["one-row", "only", "bars", "whole"]) {
  byId(id).addEventListener("change", () => {
    wanted.view = true;
    work();
  });
}

// ---- the drawings

function setDrawing(id, text) {
  const drawn = new DOMParser().parseFromString(text, SVG).documentElement;
  byId(id).replaceChildren(document.adoptNode(drawn));
}

// The names that the reply to the line changed, and the one that it declares.
function changedNames() {
  const names = new Set();
  const reply = state.replies[state.at - 1] || "";
  if (!/^\d+ ok/.test(reply)) return names;
  names.add(script.value.split("\n")[state.at - 1].trim().split(/\s+/)[1]);
  for (const detail of reply.split("\n").slice(1)) {
    const [word, name] = detail.trim().split(" ");
    if (["in", "loose", "clip", "broken", "mended"].includes(word)) names.add(name);
  }
  return names;
}

function mark() {
  const changed = changedNames();
  for (const item of document.querySelectorAll(".drawing g")) {
    const { point, protection, premise } = item.dataset;
    item.classList.toggle("chosen", state.chosen.includes(point));
    item.classList.toggle("changed", [point, protection, premise].some((name) => changed.has(name)));
    item.classList.toggle("step", state.steps.has(premise));
  }
}

for (const id of ["picture", "network"]) {
  byId(id).addEventListener("click", (event) => {
    const item = event.target.closest("g");
    if (!item) return;
    const { occurrence, point, protection, begin, end } = item.dataset;
    if (protection) askRepairs(protection);
    if (occurrence) askWhy(occurrence);
    if (begin) {
      choose(begin);
      choose(end);
    } else if (point) choose(point);
  });
}

function choose(point) {
  if (state.chosen.at(-1) === point) return;
  state.chosen = [...state.chosen, point].slice(-2);
  mark();
  if (state.chosen.length === 2) askBetween(...state.chosen);
  else byId("between").textContent = `From ${point} to ..`;
}

// ---- questions

async function ask(place, name, fields, show) {
  try {
    const answer = await call(name, { map: state.map, at: state.at, ...fields });
    byId(place).replaceChildren(...(answer.refused ? [element("p", "", answer.refused)] : show(answer)));
  } catch (error) {
    tell(error.message, true);
  }
}

function askWhy(occurrence) {
  return ask("why", "why", { occurrence }, ({ reasons }) => {
    const by = new Map(reasons.filter(({ effect }) => effect).map((reason) => [reason.effect, reason]));
    const tree = element("ul");
    tree.append(reasonItem(occurrence, by, reasons, new Set()));
    return [tree];
  });
}

// An occurrence and, below it, what it rests on; what was told above is named alone.
function reasonItem(name, by, reasons, told) {
  const item = element("li");
  const reason = by.get(name);
  if (!reason) {
    item.append(element("span", "", `${name}, a premise`));
    return item;
  }
  const unless = reason.exceptions.length ? `, unless ${reason.exceptions.join(" ")}` : "";
  item.append(element("span", "", `${name}, by rule ${reason.rule} on ${reason.event}${unless}`));
  if (told.has(name)) {
    item.append(" (as above)");
    return item;
  }
  told.add(name);
  const below = element("ul");
  for (const cited of [reason.event, ...reason.supporters]) {
    const part = reasonItem(cited, by, reasons, told);
    for (const order of reasons) {
      const before = order.first === cited && order.second === reason.event && cited !== reason.event;
      const lasts = order.first === reason.event && order.second === `${cited}.end`;
      if (before || lasts) part.append(orderOf(order));
    }
    below.append(part);
  }
  item.append(below);
  return item;
}

function orderOf(order) {
  const box = element("div", "steps", `${order.first} is at or before ${order.second} (${order.at_most}):`);
  box.append(stepsOf(order.steps));
  return box;
}

function stepsOf(steps) {
  const list = element("ul", "steps");
  for (const step of steps) {
    list.append(element("li", "", `${step.target} − ${step.origin} ≤ ${step.weight} by ${step.premise} ${step.side}`));
  }
  return list;
}

function askBetween(from, to) {
  return ask("between", "between", { from, to }, ({ bounds, path, back }) => {
    state.steps = new Set([...path.steps, ...back.steps].map(({ premise }) => premise));
    mark();
    const shown = ({ lower, upper }) => `${lower ?? "*"} .. ${upper ?? "*"}`;
    const parts = [element("p", "", `${to} − ${from}: ${shown(bounds)}`)];
    if (path.upper !== null) parts.push(element("p", "", `at most ${path.upper}:`), stepsOf(path.steps));
    if (back.upper !== null) parts.push(element("p", "", `at least ${-back.upper}:`), stepsOf(back.steps));
    return parts;
  });
}

function brokenItem(broken) {
  const blames = broken.unordered
    ? "its interval may be out of order"
    : broken.blames.map(({ token, cause, by }) => [token, cause, by].filter(Boolean).join(" ")).join(", ");
  const more = broken.more ? ` and ${broken.more} more` : "";
  const item = element("li", "", `${broken.protection}: ${blames || "no token of its fact"}${more}`);
  item.dataset.protection = broken.protection;
  item.addEventListener("click", () => askRepairs(broken.protection));
  return item;
}

function askRepairs(protection) {
  return ask("repairs", "repairs", { protection }, ({ told }) => [element("span", "", told)]);
}

// ---- the file

byId("save").addEventListener("click", () => save(false));

async function save(over) {
  try {
    await call("save", { map: state.map, script: script.value, over });
    tell(`${state.file} is saved`);
  } catch (error) {
    // somebody else wrote the file since it was read
    if (error.status === 409 && confirm(`${error.message} Write over it?`)) return save(true);
    tell(error.message, true);
  }
}

// ---- elements

function element(name, className = "", text = "") {
  const made = document.createElement(name);
  if (className) made.className = className;
  made.textContent = text;
  return made;
}

// ---- the beginning and the end

window.addEventListener("pagehide", () => {
  fetch("close", {
    method: "POST",
    keepalive: true,
    headers: { "Content-Type": "application/json" },
    body: JSON.stringify({ map: state.map }),
  });
});

async function open() {
  try {
    const opened = await call("open", {});
    state.map = opened.map;
    state.file = opened.file;
    script.value = opened.script;
    byId("file").textContent = opened.file || "no file";
    byId("save").hidden = !opened.file;
    wanted.edit = performance.now();
    work();
  } catch (error) {
    tell(error.message, true);
  }
}

// A page that comes back from the browser's store of pages has a map that is closed.
window.addEventListener("pageshow", (event) => {
  if (event.persisted) location.reload();
});

open();
