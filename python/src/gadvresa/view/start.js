// Draws all for the first time, anew where something is chosen or the window changes, and for paper.
function reveal() {
  const row = state.work !== null ? rows[state.work] : at("loads-list").children[state.resource];
  if (row && row.isConnected) row.scrollIntoView({ block: "nearest" });
  const first = listed.find((it) => loading.has(it.place));
  if (first) showInList(rows[first.place]);
}
// Brings a row into sight of the list of works, and leaves the page where it is.
function showInList(row) {
  const list = at("works-list");
  const [box, frame] = [row.getBoundingClientRect(), list.getBoundingClientRect()];
  if (box.top < frame.top || box.bottom > frame.bottom) list.scrollTop += box.top - frame.top - 24;
}
// The works that load the chosen resource in the chosen period.
function loadingWorks() {
  const { resource, period } = state;
  if (resource === null || period === null || !NOW.table) return new Set();
  return new Set(loadsIn(resource, period).map(([it]) => it.place));
}
let drawnWork = null;
let marked = new Set();
let loading = new Set();
function refresh() {
  const changed = [drawnWork, state.work].filter((place) => place !== null);
  const near = new Set(state.work === null ? [] : partners[state.work].map((it) => it.other));
  near.delete(state.work);
  const met = new Set(state.work === null ? [] : partners[state.work]
    .filter((it) => meeting(NOW.works[state.work], NOW.works[it.other], it.season).length).map((it) => it.other));
  for (const place of new Set([...marked, ...near, ...changed])) {
    rows[place].setAttribute("aria-selected", String(place === state.work));
    rows[place].classList.toggle("apart", near.has(place) && !met.has(place));
    rows[place].classList.toggle("meets", near.has(place) && met.has(place));
  }
  marked = near;
  const before = loading;
  loading = loadingWorks();
  for (const place of new Set([...before, ...loading])) rows[place].classList.toggle("loads", loading.has(place));
  setStop();
  if (drawnWork !== state.work || before.size || loading.size) drawMap();
  if (drawnWork !== state.work) {
    for (const resource of new Set(changed.flatMap((place) => NOW.works[place].own.map(([it]) => it)))) {
      at("loads-list").children[resource].querySelector("svg").replaceChildren(loadDrawing(resource, LOAD_HEIGHT));
    }
  }
  drawnWork = state.work;
  for (const row of at("loads-list").children) row.classList.toggle("chosen",
    Number(row.dataset.resource) === state.resource);
  placeMarks();
  drawSide();
}

function drawAll() {
  layOut();
  drawMap();
  drawLoads();
  drawRisk();
  refresh();
}
// One page of all works as thin bars, and one of loads and risk: each a drawing that fits its page.
function drawPaper() {
  const paper = at("print");
  const keep = [width, step, state.work];
  const [wide, left] = [1040, 118];
  width = wide - left - 6;
  step = width / T;
  state.work = null;
  const axis = (y) =>
    ticks().map((t) => [svg("text", { x: left + x(t) + step / 2, y, "text-anchor": "middle" }, String(t))]);
  const cut = (text, most) => text.length > most ? text.slice(0, most - 1) + "\u2026" : text;
  const tall = 500 - (PLAN.explained ? 50 : 0);
  const each = Math.min(14, (tall - 16) / Math.max(1, NOW.works.length));
  const works = svg("svg", { width: "100%", viewBox: `0 0 ${wide} ${Math.min(tall, 20 + each * NOW.works.length)}` },
    axis(9));
  [...NOW.works].sort(byStart).forEach((it, place) => {
    const y = 16 + each * place;
    const [from, size] = barOf(it);
    if (it.start !== null) put(works,
      svg("rect", { class: NOW.clashing && NOW.clashing.has(it.place) ? "outside" : "share", x: left + x(from), y,
      width: Math.max(1.5, step * size - 0.6), height: Math.max(0.4, each - (each > 2 ? 1 : 0.15)) }));
    if (each >= 7) put(works, svg("text", { x: left - 6, y: y + each - 2.5, "text-anchor": "end" }, cut(it.title, 22)));
  });
  if (each < 7) put(works, svg("text", { x: 0, y: 24 }, `${NOW.works.length} works, by start`));
  paper.replaceChildren(el("div", { class: "print" }, works));
  if (NOW.table && T) {
    const high = 655;
    const room = Math.min(110, (high - 150) / Math.max(1, D.resources.length));
    const sheet = svg("svg", { width: "100%", viewBox: `0 0 ${wide} ${high}` }, axis(9));
    D.resources.forEach((title, resource) => {
      const y = 14 + room * resource;
      const best = fullest(NOW.cells, resource);
      const it = NOW.cells[resource][best];
      const out = outsideTexts(resource);
      put(sheet, svg("g", { transform: `translate(${left},${y})` }, loadDrawing(resource, room - 2)),
        svg("text", { x: 0, y: y + 10 }, cut(title, 22)),
          svg("text", { x: 0, y: y + 19 }, `${best + 1}: ${shown(it.load, 3)} of ${shown(it.upper, 3)}`),
        out.length && room > 30 ? svg("text", { x: 0, y: y + 28 }, out.join(" ")) : null);
    });
    const under = 20 + room * D.resources.length;
    put(sheet, svg("g", { transform: `translate(${left},${under})` }, riskDrawing(86)),
      svg("text", { x: 0, y: under + 12 }, "Risk: mean, quantile,"),
      svg("text", { x: 0, y: under + 21 }, "greatest, excess"),
        svg("g", { transform: `translate(${left},${under + 92})` }, shareDrawing(26)),
      svg("text", { x: 0, y: under + 104 }, "Share of the cost"));
    sheet.setAttribute("viewBox", `0 0 ${wide} ${under + 124}`);
    put(paper, el("div", { class: "print" }, sheet));
  }
  [width, step, state.work] = keep;
}

drawHead();
drawLegends();
layOut();
drawWorks();
if (!NOW.table) for (const id of ["loads", "risk"]) at(id).hidden = true;
if (!D.resources.length) at("loads").hidden = true;
listenToTime();
drawAll();
drawPaper();
let waiting = null;
new ResizeObserver(() => {
  cancelAnimationFrame(waiting);
  waiting = requestAnimationFrame(() => { if (!matchMedia("print").matches) drawAll(); });
}).observe(at("main"));
document.documentElement.dataset.ready = "yes";
