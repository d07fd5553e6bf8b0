// Draws the page of a plan from its data block. Names reach the page as text alone. Numbers are kept as they were said,
// with 12 decimals as whole counts where they are added up; only what is drawn is rounded to floats.
"use strict";
const D = JSON.parse(document.getElementById("data").textContent);
const UNIT = 10n ** 12n;
const [PLAN, OTHER] = [D.plans[0], D.plans[1] || null];
const T = D.periods;

// ---- parts of the page

const at = (id) => document.getElementById(id);
function put(node, ...parts) {
  for (const part of parts.flat(Infinity)) {
    if (part !== null && part !== undefined && part !== false) node.append(part);
  }
  return node;
}
function el(tag, given, ...parts) {
  const node = document.createElement(tag);
  for (const [key, value] of Object.entries(given || {})) {
    if (key === "on") for (const [name, act] of Object.entries(value)) node.addEventListener(name, act);
    else if (key === "vars") for (const [name, it] of Object.entries(value)) node.style.setProperty(name, it);
    else if (value !== null && value !== undefined && value !== false) node.setAttribute(key, value);
  }
  return put(node, parts);
}
function svg(tag, given, ...parts) {
  const node = document.createElementNS("http://www.w3.org/2000/svg", tag);
  for (const [key, value] of Object.entries(given || {})) node.setAttribute(key, value);
  return put(node, parts);
}
const name = (text) => el("bdi", { title: text }, text);

// ---- numbers

function count(text) {
  const [whole, part = ""] = text.split(".");
  return BigInt(whole + part.padEnd(12, "0"));
}
// A count as a number with at most so many decimals, halves away from 0.
function shown(number, most = 6) {
  const unit = 10n ** BigInt(12 - most);
  const size = ((number < 0n ? -number : number) + unit / 2n) / unit;
  const digits = String(size).padStart(most + 1, "0");
  const cut = digits.length - most;
  const text = (digits.slice(0, cut) + "." + digits.slice(cut)).replace(/\.?0+$/, "");
  return (number < 0n && size > 0n ? "\u2212" : "") + text;
}
const float = (number) => Number(number) / 1e12;
const signed = (number, most) => (number > 0n ? "+" : "") + shown(number, most);
const percent = (part, places = 1) => (100 * part).toFixed(places) + "\u202f%";
// A difference in percent of what it is to, in brackets.
const partOf = (by, was) => was > 0n ? ` (${by > 0n ? "+" : ""}${percent(float(by) / float(was), 2)})`
  .replace("-", "\u2212") : "";
// A pair of a lower and an upper end, which are one text where they are the same.
const low = (pair) => count(Array.isArray(pair) ? pair[0] : pair);
const high = (pair) => count(Array.isArray(pair) ? pair[1] : pair);
const middle = (pair) => (float(low(pair)) + float(high(pair))) / 2;
const between = (pair) => Array.isArray(pair) ? `at least ${pair[0]}, at most ${pair[1]}` : `${pair} exactly`;
// A score as the cost it stands for.
const costOf = (score) => BigInt(score) / BigInt(T) / 10n ** 6n;
const plural = (number, one, more = one + "s") => `${number} ${number === 1 ? one : more}`;

// ---- what is known of a plan

const ALPHA = Number(D.alpha);
function known(plan) {
  const works = D.works.map((title, place) => {
    const [start, duration, risks, loads] = plan.runs[place];
    const own = Object.entries(loads).map(([resource, row]) => [Number(resource), row.map(count)]);
    const brought = risks.reduce((sum, it) => sum + low(it), 0n);
    return { place, title, start, duration: duration || 0, last: (start || 0) + (duration || 0) - 1, risks, own,
      brought };
  });
  const table = plan.table;
  if (!table) return { works, table: null, faults: [], costs: [], shares: [] };
  const costs = table.mean.map((mean, t) => ALPHA * middle(mean) + (1 - ALPHA) * middle(table.excess[t]));
  const total = costs.reduce((sum, it) => sum + it, 0);
  const cells = table.loads.map((row) => row.map(([load, lower, upper]) => {
    const it = { load: count(load), lower: count(lower), upper: count(upper) };
    it.by = it.load > it.upper ? it.load - it.upper : it.load < it.lower ? it.load - it.lower : 0n;
    return it;
  }));
  const faults = [];
  cells.forEach((row, resource) => row.forEach((it, t) => {
    if (it.by !== 0n) faults.push({ resource, period: t + 1, ...it });
  }));
  const clashes = [];
  table.clashes.forEach((those, t) => those.forEach((exclusion) => clashes.push({ exclusion, period: t + 1 })));
  const clashing = new Set();
  for (const { exclusion } of clashes) clashing.add(D.exclusions[exclusion][1]).add(D.exclusions[exclusion][2]);
  return { works, table, cells, faults, clashes, clashing, costs, total,
    shares: costs.map((it) => total ? it / total : 0),
    mean: [low, high].map((end) => table.mean.reduce((sum, it) => sum + end(it), 0n)),
    brought: works.reduce((sum, it) => sum + it.brought, 0n) };
}
// The cost, mean or excess of a plan: the least that it can be, or, where it breaks a rule, that of its periods.
function valueOf(plan, it, key) {
  if (plan.report[key + "_low"]) return count(plan.report[key + "_low"]);
  if (!it.table) return null;
  const column = key === "cost" ? it.costs : it.table[key].map(middle);
  return BigInt(Math.round(column.reduce((sum, value) => sum + value, 0) / T * 1e12));
}
const NOW = known(PLAN);
const WAS = OTHER ? known(OTHER) : null;
// What a work adds to the cost by its mean risk: Alpha times its mean risks, over the number of periods.
const ALPHA_PARTS = BigInt(Math.round(ALPHA * 1e6));
const costAdded = (it) => T ? ALPHA_PARTS * it.brought / (10n ** 6n * BigInt(T)) : 0n;
const COST = valueOf(PLAN, NOW, "cost");
const shareOfCost = (it) => COST > 0n ? percent(float(costAdded(it)) / float(COST)) : "\u2013";
const weights = [ALPHA_PARTS, 10n ** 6n - ALPHA_PARTS].map((it) => shown(it * 10n ** 6n));
const COST_MADE = `${weights[0]} \u00d7 mean risk + ${weights[1]} \u00d7 expected excess`;
// The period in which a resource is fullest: nearest to its upper limit, or farthest above it.
function fullest(cells, resource) {
  const part = (it) => it.upper > 0n ? float(it.load) / float(it.upper) : float(it.load - it.upper) + 1;
  return cells[resource].reduce((best, it, t, row) => part(it) > part(row[best]) ? t : best, 0);
}
const filled = (it) => it.upper > 0n ? percent(float(it.load) / float(it.upper), 0) : "\u2013";
function roomOf(it) {
  if (it.by > 0n) return `${shown(it.by)} above`;
  if (it.by < 0n) return `${shown(-it.by)} below`;
  return `room of ${shown(it.upper - it.load)}`;
}
const partners = D.works.map(() => []);
D.exclusions.forEach(([title, one, other, season], place) => {
  partners[one].push({ title, other, season, place });
  if (one !== other) partners[other].push({ title, other: one, season, place });
});
const runText = (it) => it.start === null ? "no start"
  : it.duration === 0 ? `${it.start}, for no period` : it.duration === 1 ? `${it.start}`
    : `${it.start}\u2013${it.last}`;
// The first period of a bar, and how many it has. A start that isn't allowed, and a run from it, are drawn to the ends
// of the year at most.
function barOf(it) {
  const from = Math.min(Math.max(it.start, 1), T);
  return [from, Math.min(it.duration, T + 1 - from)];
}
const inProgress = (t) => NOW.works.filter((it) => it.start !== null && it.start <= t && t <= it.last);
const moved = !WAS ? [] : NOW.works.filter((it) => it.start !== WAS.works[it.place].start);

// ---- what is chosen

const state = { period: null, work: null, resource: null, tab: "overview", sort: "start" };
function choose(some) {
  Object.assign(state, { period: null, work: null, resource: null }, some);
  state.tab = state.work !== null || state.period !== null || state.resource !== null ? "details" : state.tab;
  refresh();
}
