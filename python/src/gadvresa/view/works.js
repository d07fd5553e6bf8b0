// The axis of time, which all panels share, and the works as bars over it.
// ---- the axis of time, which all panels share

let step = 10;
let width = 600;
const x = (t) => (t - 1) * step;
function ticks() {
  const least = Math.ceil(34 / step);
  const size = [1, 2, 5, 10, 20, 25, 50, 100].find((it) => it >= least) || 100;
  const found = [1];
  for (let t = size === 1 ? 2 : size; t <= T; t += size) found.push(t);
  return found.filter((t, n) => n === 0 || x(t) - x(found[0]) > 22 || size === 1);
}
function layOut() {
  const style = getComputedStyle(document.documentElement);
  const [label, tail] = ["--name", "--tail"].map((it) => parseFloat(style.getPropertyValue(it)));
  // (less the bar by which works are scrolled)
  width = Math.max(240, at("main").clientWidth - label - tail - 15);
  step = width / T;
  at("main").style.setProperty("--plot", width + "px");
  at("main").style.setProperty("--step", step + "px");
  at("scale").replaceChildren(...ticks().map((t) => {
    const mark = el("span", {}, String(t));
    mark.style.left = x(t) + step / 2 + "px";
    return mark;
  }));
  at("lines").replaceChildren(...ticks().map((t) => {
    const line = el("i");
    line.style.left = leftOf(t) + step / 2 + "px";
    return line;
  }));
}
const leftOf = (t) => at("scale").offsetLeft + x(t);

// ---- works

const rows = [];
function drawWorks() {
  const most = NOW.works.reduce((best, it) => it.brought > best ? it.brought : best, 0n);
  for (const it of NOW.works) {
    const before = WAS && WAS.works[it.place];
    const drawn = (one, style) => {
      const [from, size] = barOf(one);
      return el("i", { class: style, vars: { "--s": from - 1, "--d": size } });
    };
    const bar = it.start === null ? null : drawn(it, it.duration ? null : "none");
    const ghost = before && before.start !== null && before.start !== it.start ? drawn(before, "was") : null;
    const share = most > 0n ? Math.max(0, float(it.brought) / float(most)) : 0;
    rows[it.place] = el("div",
      { class: "work", role: "option", tabindex: "-1", id: "work-" + it.place, "aria-selected": "false" },
      el("span", { class: "name" }, name(it.title)), el("span", { class: "plot" }, ghost, bar),
      el("span", { class: "tail", title: NOW.table ? `risk ${shown(it.brought)}` : null },
        NOW.table ? [shown(costAdded(it), 3), el("span", { class: "part" }, shareOfCost(it))] : "",
        el("b", { vars: { "--share": share } })));
    rows[it.place].place = it.place;
    if (NOW.clashing && NOW.clashing.has(it.place)) rows[it.place].classList.add("clash");
  }
  const sorts = { start: "Start", name: "Name", ...(D.resources.length ? { resource: "Resource" } : {}), risk: "Cost",
    ...(WAS ? { moved: "Moved" } : {}) };
  for (const [key, label] of Object.entries(sorts)) {
    put(at("sorts"), el("button", { type: "button", "aria-pressed": String(key === state.sort), "data-sort": key,
      on: { click: () => sortBy(key) } }, label));
  }
  at("works-tail").textContent = NOW.table ? "Cost by mean risk" : "";
  at("filter").addEventListener("input", listWorks);
  at("filter").addEventListener("keydown", (event) => {
    if (event.key === "Enter" && listed.length === 1) choose({ work: listed[0].place });
  });
  const list = at("works-list");
  list.addEventListener("click", (event) => {
    const row = event.target.closest(".work");
    if (row) chooseRow(row, state.work === row.place);
  });
  list.addEventListener("keydown", onWorksKey);
  list.addEventListener("scroll", frameMap, { passive: true });
  for (const name of ["pointerdown", "pointermove"]) at("map").addEventListener(name, goOnMap);
  listWorks();
}
function sortBy(key) {
  state.sort = key;
  for (const button of at("sorts").querySelectorAll("button")) {
    button.setAttribute("aria-pressed", String(button.dataset.sort === key));
  }
  listWorks();
}
const byText = new Intl.Collator("en", { numeric: true }).compare;
const byStart = (one, other) => (one.start ?? -1) - (other.start ?? -1) || one.last - other.last
  || one.place - other.place;
// The resource of which a work takes most, as a part of the upper limits there.
function mainResource(it) {
  let [best, most] = [-1, 0];
  for (const [resource, row] of it.own) {
    const part = Math.max(...row.map((load, day) => Math.abs(float(load)) / Math.max(1e-12,
      Math.abs(float(NOW.cells[resource][it.start - 1 + day].upper)))));
    if (part > most) [best, most] = [resource, part];
  }
  return best;
}
const far = (it) => Math.abs((it.start ?? 0) - (WAS.works[it.place].start ?? 0));
const ORDERS = {
  start: byStart,
  name: (one, other) => byText(one.title, other.title) || one.place - other.place,
  resource: (one, other) => one.main - other.main || byStart(one, other),
  risk: (one, other) => (other.brought > one.brought) - (other.brought < one.brought) || byStart(one, other),
  moved: (one, other) => far(other) - far(one) || byStart(one, other),
};
function fits(it, word) {
  return it.title.toLowerCase().includes(word)
    || it.own.some(([resource]) => D.resources[resource].toLowerCase().includes(word));
}
let listed = [];
function listWorks() {
  const word = at("filter").value.trim().toLowerCase();
  if (state.sort === "resource") {
    for (const it of NOW.works) it.main = it.own.length ? mainResource(it) : D.resources.length;
  }
  listed = NOW.works.filter((it) => !word || fits(it, word)).sort(ORDERS[state.sort]);
  const parts = [];
  let group = null;
  for (const it of listed) {
    if (state.sort === "resource" && it.main !== group) {
      group = it.main;
      const size = listed.filter((one) => one.main === group).length;
      parts.push(el("div", { class: "group" }, D.resources[group] === undefined ? "no load"
        : name(D.resources[group]), ` \u00b7 ${plural(size, "work")}`));
    }
    parts.push(rows[it.place]);
  }
  if (!parts.length) parts.push(el("p", { class: "none-found" },
    word ? "No work fits the filter." : "There are no works."));
  at("works-list").replaceChildren(...parts);
  at("works-count").textContent = word ? `${listed.length} of ${D.works.length}` : String(D.works.length);
  setStop();
  drawMap();
}
// All listed works as thin lines, with a frame round those that the list below shows. A click leads there.
const [MAP_HEIGHT, FEW] = [72, 16];
function drawMap() {
  at("map").parentNode.hidden = D.works.length < FEW;
  const each = MAP_HEIGHT / Math.max(listed.length, 1);
  const lines = { was: "", bar: "", clash: "", own: "" };
  const line = (it, y) => {
    const [from, size] = barOf(it);
    return `M${x(from).toFixed(1)},${y}h${Math.max(1, size * step).toFixed(1)}`;
  };
  listed.forEach((it, place) => {
    const y = ((place + 0.5) * each).toFixed(2);
    const before = WAS && WAS.works[it.place];
    if (before && before.start !== null && before.start !== it.start) lines.was += line(before, y);
    if (it.start === null) return;
    const kind = it.place === state.work || loading.has(it.place) ? "own"
      : NOW.clashing && NOW.clashing.has(it.place) ? "clash" : "bar";
    lines[kind] += line(it, y);
  });
  const thick = (kind) => Math.max(kind === "own" ? 2.5 : 0.7, Math.min(5, each * 0.95));
  at("map").replaceChildren(svg("svg", { width, height: MAP_HEIGHT, viewBox: `0 0 ${width} ${MAP_HEIGHT}` },
    Object.entries(lines).filter(([, d]) => d).map(([kind, d]) =>
      svg("path", { class: `map-bar ${kind}`, d, "stroke-width": thick(kind) })),
    svg("rect", { class: "map-view", id: "map-view", x: -3, width: width + 6, rx: 2 })));
  at("map-name").textContent = listed.length === D.works.length ? "all of them" : "those that fit";
  frameMap();
}
function frameMap() {
  const list = at("works-list");
  const part = (value) => Math.min(1, value / Math.max(1, list.scrollHeight)) * MAP_HEIGHT;
  const frame = at("map-view");
  frame.setAttribute("y", part(list.scrollTop));
  frame.setAttribute("height", part(list.clientHeight));
  frame.setAttribute("visibility", list.scrollHeight > list.clientHeight + 1 ? "visible" : "hidden");
}
function goOnMap(event) {
  if (event.type === "pointermove" && event.buttons !== 1) return;
  const list = at("works-list");
  const part = (event.clientY - at("map").getBoundingClientRect().top) / MAP_HEIGHT;
  list.scrollTop = part * list.scrollHeight - list.clientHeight / 2;
}

let stopRow = null;
function moveStop(row) {
  if (stopRow) stopRow.tabIndex = -1;
  if (row) row.tabIndex = 0;
  stopRow = row;
}
// One row can be reached by the tabulator: the chosen one, or the first.
function setStop() {
  const stop = listed.find((it) => it.place === state.work) || listed[0];
  moveStop(stop ? rows[stop.place] : null);
}
function chooseRow(row, isOff) {
  choose(isOff ? {} : { work: row.place });
  row.focus({ preventScroll: true });
}
function onWorksKey(event) {
  const place = document.activeElement.place;
  const here = listed.findIndex((it) => it.place === place);
  const to = { ArrowDown: here + 1, ArrowUp: here - 1, Home: 0, End: listed.length - 1, PageDown: here + 12,
    PageUp: here - 12 }[event.key];
  if (to !== undefined && listed.length) {
    const row = rows[listed[Math.min(Math.max(to, 0), listed.length - 1)].place];
    event.preventDefault();
    moveStop(row);
    row.focus({ preventScroll: true });
    row.scrollIntoView({ block: "nearest" });
  } else if ((event.key === "Enter" || event.key === " ") && place !== undefined) {
    event.preventDefault();
    chooseRow(rows[place], state.work === place);
  }
}
