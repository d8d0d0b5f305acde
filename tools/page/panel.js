// Fills the page of tools/panel in, and hands on what is clicked. The server alone knows the run: a page shows what it
// was told last, and an act names the version that it saw. So two pages of one run never disagree for long.
"use strict";

let view = null;
const text = new Map(); // the value of each variable here
const element = (id) => document.getElementById(id);
const all = (selector, root = document) => [...root.querySelectorAll(selector)];

function setText(node, words) {
  if (node.textContent !== words) node.textContent = words;
}

async function act(value) {
  if (!view) return;
  try {
    const reply = await fetch("act", {
      method: "POST",
      headers: { "Content-Type": "application/json" },
      body: JSON.stringify({ version: view.version, ...value }),
    });
    show(await reply.json());
  } catch {
    gone();
  }
}

async function look() {
  try {
    show(await (await fetch("view")).json());
  } catch {
    gone();
  }
}

function gone() {
  setText(element("message"), "The panel has ended. Start tools/panel again, and open the address that it prints.");
  document.body.dataset.gone = "yes";
}

function show(next) {
  if (view && next.version < view.version) return;
  if (view && next.version > view.version) all(".held, .taken").forEach((it) => it.classList.remove("held", "taken"));
  view = next;
  const here = view.states[view.at - view.first];
  const before = view.at > view.first ? view.states[view.at - view.first - 1] : null;
  text.clear();
  view.names.forEach((name, k) => text.set(name, here[k]));
  view.names.forEach((name, k) => showVariable(name, here[k], before && before[k] !== here[k] ? before[k] : null));
  showPlace();
  showModes();
  showAssertions();
  showHistory();
  setText(element("message"), view.message + (view.ended ? ". The state is the last one that it printed." : ""));
  element("restart").hidden = !view.ended;
  document.body.dataset.version = view.version;
  showCells(view.version);
}

function showVariable(name, value, was) {
  const node = all("[data-name]").find((it) => it.dataset.name === name);
  if (!node) return;
  setText(node.querySelector(".value"), value);
  setText(node.querySelector(".was"), was === null ? "" : `was ${was}`);
  node.classList.toggle("changed", was !== null);
  const toggle = node.querySelector("[role=switch]");
  if (toggle) {
    toggle.setAttribute("aria-checked", value === "TRUE");
    setText(toggle, value === "TRUE" ? "TRUE: switch to FALSE" : "FALSE: switch to TRUE");
  }
  for (const it of all("[data-value]", node)) it.setAttribute("aria-pressed", it.dataset.value === value);
  const form = node.querySelector("form.number-of");
  if (form) showBound(node, form, Number(value));
}

function showBound(node, form, value) {
  const low = Number(form.dataset.low), high = Number(form.dataset.high);
  const step = form.dataset.step === "" ? Infinity : Number(form.dataset.step);
  const field = form.querySelector("input");
  field.min = Math.max(low, value - step);
  field.max = Math.min(high, value + step);
  if (document.activeElement !== field) field.value = value;
  setText(node.querySelector(".bound"), `${field.min} .. ${field.max} now` + (step < Infinity ? `, of ${low} .. ${high}` : ""));
}

function showPlace() {
  setText(element("place"), `step ${view.at} of ${view.last}`);
  element("first").disabled = element("back").disabled = view.at === 0;
  element("last").disabled = element("forward").disabled = view.at === view.last;
  element("slider").max = view.last;
  element("slider").value = view.at;
}

function showModes() {
  for (const svg of all("svg.diagram")) {
    for (const it of all(".mode", svg)) it.classList.toggle("present", it.dataset.mode === text.get(svg.dataset.class));
  }
}

function showAssertions() {
  for (const row of all("[data-assertion]")) {
    const steps = view.broken[row.dataset.assertion] || [];
    const breaks = steps.includes(view.at);
    const cell = row.querySelector(".judged");
    setText(cell, breaks ? "✗ broken" : "✓ holds");
    cell.classList.toggle("breaks", breaks);
    cell.classList.toggle("holds", !breaks);
    setText(row.querySelector(".steps"), steps.length ? steps.slice(0, 12).join(", ") + (steps.length > 12 ? " .." : "") : "none");
  }
}

async function showCells(version) {
  let cells;
  try {
    cells = await (await fetch("cells")).json();
  } catch {
    return;
  }
  if (cells.version !== view.version) return;
  const held = new Set(cells.held.map(([table, row, column]) => `${table} ${row}.${column}`));
  const counts = new Map(cells.counts.map(([table, row, column, count]) => [`${table} ${row}.${column}`, count]));
  let tried = 0;
  for (const table of all("table.cells")) {
    for (const cell of all("[data-place]", table)) {
      const place = `${table.dataset.table} ${cell.dataset.place}`;
      const count = counts.get(place) || 0;
      cell.classList.toggle("held", held.has(place));
      cell.dataset.count = count;
      if (count > 0) tried += 1;
    }
  }
  for (const svg of all("svg.diagram")) {
    for (const it of all(".arrow", svg)) it.classList.toggle("taken", held.has(`${svg.dataset.class} ${it.dataset.place}`));
  }
  const where = view.at === 0 ? " No input led to state 0, so no cell is marked at it." : "";
  setText(element("coverage"), `${tried} of ${counts.size} cells have held in the ${view.at} inputs so far.${where}`);
  document.body.dataset.cells = version;
}

// The history: a line of time for each variable, drawn from the states of the window.
const SVG = "http://www.w3.org/2000/svg";
const HEIGHT = 30, NAME = 190;

function drawn(kind, attributes, words) {
  const node = document.createElementNS(SVG, kind);
  for (const [name, value] of Object.entries(attributes)) node.setAttribute(name, value);
  if (words !== undefined) node.textContent = words;
  return node;
}

function showHistory() {
  const count = view.states.length, width = Math.max(26, Math.min(90, 900 / count));
  const whole = NAME + count * width + 10, top = 24, height = top + view.names.length * HEIGHT + 20;
  const svg = drawn("svg", { width: whole, height, role: "img", "aria-label": `states ${view.first} to ${view.first + count - 1}; each step is told above, too` });
  const at = (k) => NAME + k * width;
  svg.append(drawn("rect", { class: "here", x: at(view.at - view.first), y: 0, width, height }));
  for (let k = 0; k < count; k++) {
    svg.append(drawn("text", { x: at(k) + width / 2, y: 15, "text-anchor": "middle" }, String(view.first + k)));
  }
  view.names.forEach((name, n) => svg.append(...lineOf(name, n, top + n * HEIGHT, at, width)));
  const ahead = view.at - view.first + 1;
  svg.append(drawn("rect", { class: "ahead", x: at(ahead), y: 0, width: Math.max(0, at(count) - at(ahead)), height }));
  const broken = new Set(Object.values(view.broken).flat());
  for (let k = 0; k < count; k++) {
    if (broken.has(view.first + k)) {
      svg.append(drawn("path", { class: "broken", d: `M${at(k) + width / 2 - 7},${height - 3} l7,-13 l7,13 Z` }));
    }
    const step = drawn("rect", { class: "step", x: at(k), y: 0, width, height, "data-step": view.first + k });
    const input = k > 0 ? view.inputs[k - 1] : null;
    step.append(drawn("title", {}, `step ${view.first + k}${input ? `: ${input[0]}=${input[1]}` : ""}`));
    svg.append(step);
  }
  element("history").replaceChildren(svg);
}

function lineOf(name, n, y, at, width) {
  const values = view.states.map((it) => it[n]);
  const nodes = [drawn("text", { x: 0, y: y + 20 }, name), drawn("path", { class: "grid", d: `M0,${y + HEIGHT} H${at(values.length)}` })];
  if (values.every((it) => /^-?\d+$/.test(it))) return nodes.concat(curve(values, y, at, width));
  let from = 0;
  for (let k = 1; k <= values.length; k++) {
    if (k < values.length && values[k] === values[from]) continue;
    const room = (k - from) * width, most = Math.floor((room - 8) / 7.3);
    const low = values[from] === "FALSE" ? 16 : 4, size = values[from] === "FALSE" ? 12 : 24;
    nodes.push(drawn("rect", { class: "run", x: at(from) + 1, y: y + low, width: room - 2, height: size }));
    const words = values[from].length > most ? values[from].slice(0, Math.max(1, most - 1)) + "…" : values[from];
    nodes.push(drawn("text", { x: at(from) + 5, y: y + (low === 16 ? 26 : 20) }, words));
    from = k;
  }
  return nodes;
}

function curve(values, y, at, width) {
  const numbers = values.map(Number), low = Math.min(...numbers), high = Math.max(...numbers);
  const level = (value) => y + HEIGHT - 4 - (high > low ? ((value - low) / (high - low)) * 12 : 0);
  const path = numbers.map((value, k) => `${k ? "V" : `M${at(0)},`}${level(value)} H${at(k + 1)}`).join(" ");
  const nodes = [drawn("path", { class: "curve", d: path })];
  numbers.forEach((value, k) => {
    if (k === 0 || value !== numbers[k - 1]) nodes.push(drawn("text", { x: at(k) + 3, y: y + 11 }, String(value)));
  });
  return nodes;
}

// What is clicked, typed and chosen.
document.addEventListener("click", (event) => {
  const step = event.target.closest("[data-step]");
  if (step && step.closest("#history")) return act({ act: "go", place: Number(step.dataset.step) });
  const button = event.target.closest("button");
  const input = button && button.closest(".input");
  if (!input) return undefined;
  if (button.matches("[role=switch]")) {
    return act({ act: "set", name: input.dataset.name, value: text.get(input.dataset.name) === "TRUE" ? "FALSE" : "TRUE" });
  }
  if (button.dataset.value !== undefined) return act({ act: "set", name: input.dataset.name, value: button.dataset.value });
  return undefined;
});

document.addEventListener("submit", (event) => {
  event.preventDefault();
  const name = event.target.closest(".input").dataset.name;
  act({ act: "set", name, value: event.target.querySelector("input, select").value });
});

document.addEventListener("keydown", (event) => {
  if (!view || event.altKey || event.ctrlKey || event.metaKey || event.target.closest("input, select, .scroll")) return;
  const place = { ArrowLeft: view.at - 1, ArrowRight: view.at + 1, Home: 0, End: view.last }[event.key];
  if (place === undefined) return;
  event.preventDefault();
  if (place >= 0 && place <= view.last) act({ act: "go", place });
});

element("first").addEventListener("click", () => act({ act: "go", place: 0 }));
element("back").addEventListener("click", () => act({ act: "go", place: view.at - 1 }));
element("forward").addEventListener("click", () => act({ act: "go", place: view.at + 1 }));
element("last").addEventListener("click", () => act({ act: "go", place: view.last }));
element("restart").addEventListener("click", () => act({ act: "restart" }));
element("slider").addEventListener("change", (event) => act({ act: "go", place: Number(event.target.value) }));
element("load").addEventListener("change", async (event) => {
  const [file] = event.target.files;
  if (file) await act({ act: "load", text: await file.text() });
  event.target.value = "";
});

const news = new EventSource("events");
news.addEventListener("message", look);
news.addEventListener("error", () => news.readyState === EventSource.CLOSED ? gone() : look());
