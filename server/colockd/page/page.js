"use strict";
// The page asks the server's own routes, once a second while it is seen. All that is shown is set as text.

const at = (id) => document.getElementById(id);
let token = sessionStorage.getItem("token") || "";

async function ask(method, path, body) {
  const headers = token ? { Authorization: `Bearer ${token}` } : {};
  const answer = await fetch(path, { method, headers, cache: "no-store", body: body && JSON.stringify(body) });
  const told = await answer.json();
  if (answer.status === 401) at("access").hidden = false;
  if (!answer.ok) throw new Error(`${told.title}: ${told.detail}`);
  return told;
}

// ---- making elements

function element(name, text, className) {
  const made = document.createElement(name);
  if (text !== undefined) made.textContent = text;
  if (className) made.className = className;
  return made;
}

function row(cells) {
  const made = element("tr");
  made.append(...cells);
  return made;
}

/** Fills a table, but for what has the focus: a button that is about to be pressed stays. */
function fill(id, rows, columns, none) {
  const body = at(id);
  if (body.contains(document.activeElement)) return;
  if (rows.length === 0) {
    const cell = element("td", none);
    cell.colSpan = columns;
    const empty = row([cell]);
    empty.className = "none";
    rows = [empty];
  }
  body.replaceChildren(...rows);
}

const seconds = (count) => (count < 90 ? `${count.toFixed(0)} s` : `${(count / 60).toFixed(0)} min`);
const milliseconds = (count) => (count === null ? "–" : `${count < 10 ? count.toFixed(1) : count.toFixed(0)} ms`);

// ---- what is shown each second

function showCommits(status) {
  const all = status.commits.seconds;
  const whole = all.slice(0, -1);
  at("rate").textContent = whole.length ? whole[whole.length - 1] : 0;
  at("p50").textContent = milliseconds(status.commits.p50_ms);
  at("p99").textContent = milliseconds(status.commits.p99_ms);
  at("total").textContent = status.commits.total;
  at("waiting").textContent = status.waiting;
  at("deadlocks").textContent = status.deadlocks;
  at("epoch").textContent = status.epoch_events === null ? "–" : status.epoch_events;
  const most = Math.max(1, ...whole);
  at("peak").textContent = `at most ${Math.max(0, ...whole)}`;
  const first = 300 - whole.length;
  at("bars").setAttribute("d", whole.map((count, place) => {
    const high = (count / most) * 58;
    return count ? `M${first + place} 60v-${high.toFixed(1)}h0.9v${high.toFixed(1)}z` : "";
  }).join(""));
}

function showOpen(open) {
  fill("open-rows", open.map((one) => {
    const held = one.held.map((held) => `${held.object} ${held.call} ${held.reply}`).slice(-4).join(", ");
    const more = one.operations > 4 ? `… ${held}` : held;
    const button = element("button", "Abort", "abort");
    button.setAttribute("aria-label", `Abort ${one.id}`);
    button.addEventListener("click", () => abort(one, button));
    const last = element("td");
    last.append(button);
    return row([element("td", one.id, "word"), element("td", one.owner || "–", "word"), element("td", seconds(one.age), "number"),
      element("td", seconds(one.idle_for), "number"), element("td", more || "nothing", "word"), element("td", waitsFor(one), "word"), last]);
  }), 7, "No transaction is open.");
}

const waitsFor = (one) => (one.key ? `a decision on ${one.key}, ${seconds(one.left)} more` : one.waits_for || "–");

function showHot(status) {
  const holders = (name) => status.open.filter((one) => one.held.some((held) => held.object === name)).map((one) => one.id);
  fill("hot-rows", status.hot.map((hot) =>
    row([element("td", hot.object, "word"), element("td", hot.busy, "number"), element("td", holders(hot.object).join(", ") || "–", "word"),
      element("td", hot.waiting.map((one) => `${one.transaction || "an attempt"} for ${one.waits_for || "another"}`).join(", ") || "–", "word")])),
  4, "No call was busy since the start.");
}

/** One that is prepared is decided; another one is aborted by its name. */
async function abort({ id, key }, button) {
  button.disabled = true;
  try {
    if (key) await ask("PUT", `/v1/decisions/${encodeURIComponent(key)}`, { outcome: "abort" });
    else await ask("POST", `/v1/transactions/${id}/abort`);
    tell(`${id} is aborted.`);
  } catch (error) {
    tell(`${id}: ${error.message}`, true);
  }
  button.blur();
  await look();
}

function tell(words, isBad) {
  at("told").textContent = words;
  at("told").classList.toggle("bad", Boolean(isBad));
}

async function look() {
  const health = at("health");
  try {
    const status = await ask("GET", "/v1/status");
    health.textContent = `${status.draining ? "ending" : "serving"}, ${status.objects - 1} objects, life ${status.life} of the store`;
    health.classList.toggle("bad", status.draining);
    at("access").hidden = true;
    showCommits(status);
    showOpen(status.open);
    showHot(status);
  } catch (error) {
    health.textContent = error.message;
    health.classList.add("bad");
  }
}

// ---- an object

async function suggest() {
  const prefix = at("object").value;
  const page = await ask("GET", `/v1/objects?limit=20&prefix=${encodeURIComponent(prefix)}`);
  at("names").replaceChildren(...page.objects.map((one) => {
    const option = element("option");
    option.value = one.name;
    return option;
  }));
}

async function find(name) {
  const found = at("found");
  try {
    const one = await ask("GET", `/v1/objects/${name.split("/").map(encodeURIComponent).join("/")}`);
    const events = await eventsOf(name);
    const rows = events.slice(-20).reverse().map((event) =>
      row([element("td", event.at, "word"), element("td", event.transaction, "number"), element("td", event.event),
        element("td", `${event.call || ""} ${event.reply || (event.blocker === undefined ? "" : `by ${event.blocker}`)}`, "word")]));
    const table = element("table");
    const head = element("tr");
    ["Event", "Transaction", "", "Call"].forEach((word, place) => head.append(element("th", word, place === 1 ? "number" : "")));
    table.append(head, ...rows);
    found.replaceChildren(element("p", `${one.name}: ${one.type}, ${one.recovery}, committed state ${one.state}`),
      rows.length ? table : element("p", "None of the last events was at it."));
  } catch (error) {
    found.replaceChildren(element("p", error.message));
  }
}

async function eventsOf(name) {
  const headers = token ? { Authorization: `Bearer ${token}` } : {};
  const answer = await fetch(`/v1/events?last=20000&follow=false&object=${encodeURIComponent(name)}`, { headers });
  const text = answer.ok ? await answer.text() : "";
  return text.split("\n").filter((line) => line).map((line) => JSON.parse(line));
}

// ---- types

async function showTypes() {
  const { types } = await ask("GET", "/v1/types");
  at("type").replaceChildren(...types.map((one) => element("option", one.name)));
  await showGrid();
}

async function showGrid() {
  const name = at("type").value;
  if (!name) {
    at("grid").replaceChildren(element("p", "There is no type yet."));
    return;
  }
  const one = await ask("GET", `/v1/types/${encodeURIComponent(name)}`);
  if (one.form === "number") {
    at("grid").replaceChildren(element("p", `${name} is a number, in escrow alone: its bounds decide.`));
    return;
  }
  const kind = at("kind").value;
  const pairs = new Set(one.conflicts[kind].map(([requested, held]) => `${requested} ${held}`));
  const table = element("table", undefined, "grid");
  table.append(element("caption", "Rows are requested, columns held; x keeps out.", "unseen"));
  const head = element("tr");
  head.append(element("td", ""), ...one.operations.map((_, place) => {
    const cell = element("th", place);
    cell.scope = "col";
    cell.title = one.operations[place].join(" ");
    return cell;
  }));
  table.append(head, ...one.operations.map((operation, requested) => {
    const first = element("th", `${requested} ${operation.join(" ")}`);
    first.scope = "row";
    return row([first, ...one.operations.map((_, held) => {
      const isOne = pairs.has(`${requested} ${held}`);
      return element("td", isOne ? "x" : "·", isOne ? "conflict" : "");
    })]);
  }));
  at("grid").replaceChildren(table);
}

// ---- what is done by hand

function listen() {
  at("access").addEventListener("submit", (event) => {
    event.preventDefault();
    token = at("token").value.trim();
    sessionStorage.setItem("token", token);
    start();
  });
  at("search").addEventListener("submit", (event) => {
    event.preventDefault();
    find(at("object").value);
  });
  at("object").addEventListener("input", () => suggest().catch(() => {}));
  at("type").addEventListener("change", () => showGrid().catch(() => {}));
  at("kind").addEventListener("change", () => showGrid().catch(() => {}));
  document.addEventListener("keydown", (event) => {
    const isTyping = /^(INPUT|SELECT|TEXTAREA)$/.test(document.activeElement.tagName);
    if (isTyping || event.ctrlKey || event.metaKey || event.altKey) return;
    if (event.key === "/") {
      event.preventDefault();
      at("object").focus();
    } else if (event.key === "o") {
      at("open").focus();
    }
  });
}

function start() {
  look();
  showTypes().catch(() => {});
  suggest().catch(() => {});
}

listen();
start();
setInterval(() => {
  if (!document.hidden) look();
}, 1000);
