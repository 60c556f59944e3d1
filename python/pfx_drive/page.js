"use strict";
// Asks for status.json once a second and shows it. Whatever a task or a unit says is set as text, never as markup.

const EVERY = 1000, TALL = 14, MID = 60, SEATS = 24;
const SVG = "http://www.w3.org/2000/svg";
const by = (id) => document.getElementById(id);
const count = (n) => n.toLocaleString("en-US");
let seen = null, lostSince = 0;
const lanes = new Map();

function made(tag, name, text) {
  const it = document.createElement(tag);
  if (name) it.className = name;
  if (text !== undefined) it.textContent = text;
  return it;
}

function drawn(tag, name, fields) {
  const it = document.createElementNS(SVG, tag);
  it.setAttribute("class", name);
  for (const key in fields) it.setAttribute(key, fields[key]);
  return it;
}

function told(it, text) { if (it.textContent !== text) it.textContent = text; }

function time(seconds) {
  if (seconds < 60) return seconds.toFixed(seconds < 10 ? 1 : 0) + " s";
  const whole = Math.floor(seconds), two = (n) => String(n).padStart(2, "0");
  const hours = Math.floor(whole / 3600), rest = Math.floor(whole / 60) % 60 + ":" + two(whole % 60);
  return hours ? hours + ":" + two(Math.floor(whole / 60) % 60) + ":" + two(whole % 60) : rest;
}

function facts(it) {
  const owed = it.tasks.reduce((sum, task) => sum + task.owed, 0);
  const working = it.tasks.filter((task) => !["ended", "parked", "other", "idle"].includes(task.state)).length;
  const parked = it.tasks.filter((task) => task.state === "parked").length;
  const rows = [
    [`${it.busy} of ${it.seats}`, "seats busy"],
    [it.rate < 10 ? it.rate.toFixed(2) : it.rate.toFixed(0), "units a second"],
    [count(it.answered), "recorded here"],
    [count(owed), "units owed"],
    [count(it.slot), it.last_slot ? `slots of ${count(it.last_slot)}` : "slots granted"],
    [`${working} of ${it.tasks.length}`, parked ? `with work, ${parked} parked` : "tasks with work"],
    [count(it.failures), "failed tries", it.failures > 0],
    [it.pfx.reopened ? `${it.pfx.reopened} restarts` : "well", `pfx, process ${it.pfx.pid}`],
  ];
  const all = by("facts");
  while (all.children.length < rows.length) {
    const card = made("div", "card fact");
    card.append(made("b"), made("span"));
    all.append(card);
  }
  rows.forEach(([value, name, bad], at) => {
    const card = all.children[at];
    card.classList.toggle("bad", Boolean(bad));
    told(card.children[0], value);
    told(card.children[1], name);
  });
}

function failures(it) {
  const rows = it.tasks.filter((task) => task.state === "parked" || task.last_failure && task.state === "pauses").slice(0, 5);
  const all = by("failures");
  all.hidden = rows.length === 0;
  all.replaceChildren(...rows.map((task) => made("div", "", `${task.name} ${task.state === "parked" ? "is parked" : "is tried again"}: ${task.last_failure || "its text is " + task.text}`)));
}

function seats(it) {
  const all = by("seats"), number = Math.max(it.seats, it.units.length);
  all.classList.toggle("many", number > SEATS);
  while (all.children.length > number) all.lastChild.remove();
  while (all.children.length < number) {
    const card = made("div", "card seat"), first = made("div", "unit"), second = made("div", "soft mono");
    first.append(made("span"), made("span"));
    second.append(made("span"), made("span"));
    card.append(first, second);
    all.append(card);
  }
  const units = [...it.units].sort((a, b) => a.seat.localeCompare(b.seat, "en", {numeric: true}));
  for (let at = 0; at < number; at++) {
    const unit = units[at], card = all.children[at], cells = card.querySelectorAll("span");
    card.classList.toggle("free", !unit);
    told(cells[0], unit ? unit.task : "free");
    told(cells[1], unit ? String(unit.number) : "");
    told(cells[2], unit ? unit.seat + (unit.try > 1 ? ", try " + unit.try : "") : "");
    told(cells[3], unit ? time(unit.for) : "");
  }
}

function lane(task) {
  const row = made("div", "task"), svg = drawn("svg", "lane", {preserveAspectRatio: "none", "aria-hidden": "true"});
  const it = {row, svg, name: made("div", "name"), share: made("small"), lag: made("span", "n lagn"), got: made("span", "n got"), rec: made("span", "n rec"),
    owed: made("span", "n owed"), st: made("span", "st"), state: made("span", "state"), text: made("span", "text mono"),
    bar: drawn("path", "bar", {}), area: drawn("path", "area", {}), line: drawn("path", "lag", {"vector-effect": "non-scaling-stroke"}),
    zero: drawn("path", "zero", {"vector-effect": "non-scaling-stroke"}), edge: drawn("path", "edge", {"vector-effect": "non-scaling-stroke"})};
  svg.append(it.edge, it.zero, it.area, it.line, it.bar);
  it.st.append(it.state);
  it.name.append(task.name, it.share);
  it.name.title = `${task.name}, due ${task.e} of every ${task.p} slots`;
  told(it.share, `${task.e}/${task.p}`);
  row.append(it.name, svg, it.lag, it.got, it.rec, it.owed, it.st, it.text);
  return it;
}

// The bars of a task's slots and its lag at their ends, from what it has now backwards. Heights are in hundredths.
function draw(it, task, place, rows, form) {
  const width = 6, span = Math.max(rows.rows.length, 60), left = span - rows.rows.length;
  const barTop = form === "small" ? 6 : 4, barHeight = form === "small" ? 26 : form === "mid" ? 26 : 22;
  const zero = form === "small" ? 67 : 64, one = form === "small" ? 31 : 33;
  let granted = task.granted, lags = [], bars = "";
  for (let at = rows.rows.length; at >= 0; at--) {
    lags.push([left + at, (task.e * (rows.first + at) - task.p * granted) / task.p]);
    if (at > 0 && rows.rows[at - 1].includes(place)) {
      granted -= 1;
      bars += `M${(left + at - 1) * width + .5} ${barTop}h${width - 1}v${barHeight}h${1 - width}z`;
    }
  }
  const points = lags.map(([x, lag]) => `${x * width} ${(zero - lag * one).toFixed(1)}`);
  it.svg.setAttribute("viewBox", `0 0 ${span * width} 100`);
  it.bar.setAttribute("d", bars);
  it.line.setAttribute("d", "M" + points.join("L"));
  it.area.setAttribute("d", `M${span * width} ${zero}L` + points.join("L") + `L${left * width} ${zero}z`);
  it.zero.setAttribute("d", `M0 ${zero}H${span * width}`);
  it.edge.setAttribute("d", `M0 ${zero - one}H${span * width}M0 ${zero + one}H${span * width}`);
}

const RANK = {parked: 0, pauses: 1, waits: 2, runs: 3, records: 4, rests: 5, idle: 6, other: 7, ended: 8};
const ORDERS = {
  place: (a, b) => a.place - b.place, lag: (a, b) => b.lag / b.p - a.lag / a.p, owed: (a, b) => b.owed - a.owed,
  state: (a, b) => RANK[a.state] - RANK[b.state], failures: (a, b) => b.failures - a.failures,
};

function tasks(it) {
  it.tasks.forEach((task, place) => { task.place = place; });
  const wanted = by("filter").value.trim().toLowerCase();
  const shown = it.tasks.filter((task) => task.name.toLowerCase().includes(wanted)).sort(ORDERS[by("order").value]);
  const form = shown.length <= TALL ? "tall" : shown.length <= MID ? "mid" : "small";
  by("lanes").className = form;
  told(by("shown"), shown.length < it.tasks.length ? `${shown.length} of ${it.tasks.length}` : String(it.tasks.length));
  const rows = shown.map((task) => {
    if (!lanes.has(task.name)) lanes.set(task.name, lane(task));
    const one = lanes.get(task.name), lag = task.lag / task.p;
    one.row.className = "task " + task.state;
    one.row.title = form === "small" ? `${task.state}, lag ${lag.toFixed(2)}, owed ${task.owed}, text ${task.text}` : task.last_failure ? "failed last: " + task.last_failure : "";
    told(one.lag, (lag >= 0 ? "+" : "−") + Math.abs(lag).toFixed(2));
    told(one.got, count(task.granted));
    told(one.rec, count(task.recorded));
    told(one.owed, task.passed ? "–" : String(task.owed));
    one.owed.title = task.passed ? `${task.passed} places passed` : "";
    told(one.state, ["pauses", "idle"].includes(task.state) ? `${task.state} ${Math.ceil(task.next_try)} s` : task.state);
    told(one.text, task.text);
    one.text.title = task.text;
    draw(one, task, task.place, it.rows, form);
    return one.row;
  });
  const all = by("tasks");
  if (rows.length !== all.children.length || rows.some((row, at) => all.children[at] !== row)) {
    all.replaceChildren(...rows.length ? rows : [Object.assign(made("div", "", "no task of that name"), {id: "none"})]);
  }
}

function show() {
  if (!seen) return;
  const file = seen.store.split("/").pop();
  told(by("store"), file);
  by("store").title = seen.store;
  document.title = `${file}: ${seen.busy} of ${seen.seats} busy`;
  told(by("who"), `${seen.tasks.length} tasks on ${seen.workers} workers, process ${seen.pid}, for ${time(seen.up)}`);
  facts(seen);
  failures(seen);
  seats(seen);
  tasks(seen);
}

async function ask() {
  const link = by("link");
  try {
    const answer = await fetch("status.json", {cache: "no-store", signal: AbortSignal.timeout(5000)});
    seen = await answer.json();
    lostSince = 0;
    link.className = seen.stopping ? "stopping" : "";
    told(by("state"), seen.stopping ? "stopping" : "live");
    show();
  } catch (error) {
    lostSince = lostSince || Date.now();
    link.className = "lost";
    told(by("state"), `no answer for ${time((Date.now() - lostSince) / 1000)}`);
  }
  setTimeout(ask, document.hidden ? 5 * EVERY : EVERY);
}

by("filter").addEventListener("input", show);
by("order").addEventListener("change", show);
ask();
