// The side: what is chosen, what is broken, what moved, and how the search went.
const tabs = () => [["overview", "Overview"], ["details", "Details"],
  ...(NOW.table ? [["outside", `Broken (${NOW.faults.length + NOW.clashes.length})`]] : []),
  ...(WAS ? [["changes", `Moved (${moved.length})`]] : []), ...(D.progress ? [["progress", "Search"]] : [])];
function showTab(key) {
  state.tab = key;
  drawSide();
}
function drawSide() {
  const focused = document.activeElement && document.activeElement.closest("#tabs") !== null;
  at("tabs").replaceChildren(...tabs().map(([key, label], n, all) => el("button",
    { type: "button", role: "tab", "data-tab": key, id: "tab-" + key,
    "aria-selected": String(key === state.tab), "aria-controls": "panel", tabindex: key === state.tab ? 0 : -1,
    on: { click: () => showTab(key), keydown: (event) => {
      const by = { ArrowRight: 1, ArrowLeft: -1 }[event.key];
      if (!by) return;
      showTab(all[(n + by + all.length) % all.length][0]);
      at("tab-" + state.tab).focus({ preventScroll: true });
    } } }, label)));
  if (focused) at("tab-" + state.tab).focus({ preventScroll: true });
  at("panel").setAttribute("aria-labelledby", "tab-" + state.tab);
  at("panel").replaceChildren();
  put(at("panel"),
    { overview: overview, details: details, outside: outside, changes: changes, progress: progress }[state.tab]());
  at("panel").scrollTop = 0;
}
function tableOf(heads, lines) {
  const cell = (tag, it) => it && it.n !== undefined ? el(tag,
    { class: "n" + (it.style ? " " + it.style : ""), title: it.hint || null }, it.n) : el(tag, {}, it);
  return el("table", {}, el("thead", {}, el("tr", {}, heads.map((it) => cell("th", it)))),
    el("tbody", {},
      lines.map((line) => el("tr", { class: line.chosen ? "chosen" : null },
      (line.cells || line).map((it) => cell("td", it))))));
}
const n = (text, style, hint) => ({ n: text, style, hint });
const workButton = (place) => el("button",
  { type: "button", on: { click: () => { choose({ work: place }); reveal(); } } }, name(D.works[place]));
const periodButton = (t, resource = null) => el("button",
  { type: "button", on: { click: () => choose({ period: t, resource }) } }, String(t));
const resourceButton = (resource, period = null) => el("button",
  { type: "button", on: { click: () => choose({ resource, period }) } }, name(D.resources[resource]));
const facts = (...pairs) => el("dl", { class: "facts" }, pairs.filter(Boolean)
  .map(([label, value]) => [el("dt", {}, label), el("dd", {}, value)]));

function overview() {
  if (!NOW.table) {
    return [el("p", { class: "hint-text" },
      "Loads and risk are known only where every start is allowed. The bars show the starts that the plan has.")];
  }
  const busiest = D.resources.map((title, resource) => {
    const t = fullest(NOW.cells, resource);
    const it = NOW.cells[resource][t];
    return [resourceButton(resource, t + 1), n(periodButton(t + 1, resource)), n(shown(it.load, 3)),
      n(shown(it.upper, 3)), n(filled(it), it.by > 0n ? "out" : "")];
  });
  const costly = [...NOW.works].sort(ORDERS.risk).slice(0, 6).filter((it) => it.brought > 0n);
  const periods = NOW.shares.map((share, t) => [share, t + 1]).sort((one, other) => other[0] - one[0]).slice(0, 5);
  return [
    D.resources.length ? [el("h3", {}, "Busiest period of each resource"),
      tableOf(["Resource", n("Period"), n("Load"), n("Limit"), n("Full")], busiest)] : null,
    costly.length
      ? [el("h3", {}, "Works that cost most by their mean risk"),
      tableOf(["Work", n("Periods"), n("Risk"), n("Adds to cost"), n("Share", "", "of the cost")], costly.map((it) =>
      [workButton(it.place), n(runText(it)), n(shown(it.brought, 3)), n(shown(costAdded(it))), n(shareOfCost(it))])),
      costMade()] : null,
    el("h3", {}, "Periods that cost most"),
    tableOf([n("Period"), n("Mean"), n("Excess"), n("Of the cost")], periods.map(([share, t]) =>
      [n(periodButton(t)), n(shown(low(NOW.table.mean[t - 1]), 3)), n(shown(low(NOW.table.excess[t - 1]), 3)),
        n(percent(share))])),
    el("p", { class: "hint-text" },
      "Choose a work, a period or a load in the drawing for more. Arrow keys move, Enter chooses, Escape lets go."),
  ];
}
// How long a work takes, and between which ends, where that differs from start to start.
function durationText(it) {
  const ends = D.durations[it.place];
  const differs = ends && ends[0] !== ends[1]
    ? `it differs from start to start, from ${ends[0]} to ${plural(ends[1], "period")}` : "";
  if (it.start === null) return differs || "\u2013";
  return plural(it.duration, "period") + (differs && `; ${differs}`);
}
// How cost is made, and which part of it is that of single works.
function costMade() {
  return el("p", { class: "hint-text", id: "cost-made" }, `Cost is ${COST_MADE}. A work\u2019s risk is the sum of its `
    + `mean risks over its periods; what it adds to the cost is ${weights[0]} \u00d7 its risk over `
    + `${plural(T, "period")}. The excess is that of all works together and no single one\u2019s, so it isn\u2019t `
    + "split among them.");
}
const shareOfMean = (it) => NOW.brought > 0n ? percent(float(it.brought) / float(NOW.brought)) : "\u2013";

function details() {
  if (state.work !== null) return workDetails(NOW.works[state.work]);
  if (state.resource !== null) return resourceDetails(state.resource, state.period);
  if (state.period !== null && NOW.table) return periodDetails(state.period);
  return [el("p", { class: "hint-text" },
    "Nothing is chosen. Choose a work, a period of the axis, a load or the name of a resource.")];
}
function workDetails(it) {
  const before = WAS && WAS.works[it.place];
  const used = it.own.map(([resource]) => resource);
  const days = it.risks.map((risk, day) => [n(periodButton(it.start + day)), n(shown(low(risk), 3), "", between(risk)),
    ...it.own.map(([, row]) => n(shown(row[day])))]);
  const rank = 1 + NOW.works.filter((one) => one.brought > it.brought).length;
  return [
    el("h2", {}, name(it.title)),
    facts(["Start", it.start === null ? "none" : String(it.start)],
      ["Duration", durationText(it)],
      it.duration ? ["In progress", `period${it.duration > 1 ? "s" : ""} ${runText(it)}`] : null,
      before ? ["Before", before.start === it.start ? "the same" : `${runText(before)} (${moveText(it)})`] : null,
      NOW.table ? ["Risk it brings",
        `${shown(it.brought)} over its periods, ${shareOfMean(it)} of the mean risk`] : null,
      NOW.table ? ["Adds to cost", `${shown(costAdded(it))} by its mean risk, ${shareOfCost(it)} of the cost, `
        + `rank ${rank} of ${D.works.length}`] : null),
    days.length ? [el("h3", {}, "By period"),
      tableOf([n("Period"), n("Risk"), ...used.map((resource) => n(resourceButton(resource)))], days)] : null,
    el("h3", {}, `Must not meet (${partners[it.place].length})`),
    partners[it.place].length ? tableOf(["Work", "Season", ""], partners[it.place].map((one) => {
      const there = NOW.works[one.other];
      const met = meeting(it, there, one.season);
      const season = D.seasons[one.season];
      return [workButton(one.other),
        el("span", { title: `${one.title}: periods ${ranges(season[1])}` }, name(season[0])),
        met.length ? el("span", { class: "out" }, `\u2715 in work ${runText(there)}; they meet in ${ranges(met)}`)
          : there.duration ? `in work ${runText(there)}; ${apartText(it, there)}` : runText(there)];
    })) : el("p", {}, "No exclusion names it."),
  ];
}
const apartText = (one, other) => one.duration && one.start <= other.last && other.start <= one.last
  ? "they meet outside the season alone" : "they don\u2019t meet";
const meeting = (one, other, season) => one.start === null || other.start === null ? []
  : D.seasons[season][1].filter((t) =>
  t <= T && one.start <= t && t <= one.last && other.start <= t && t <= other.last);
function ranges(periods) {
  const found = [];
  for (const t of periods) {
    if (found.length && found[found.length - 1][1] === t - 1) found[found.length - 1][1] = t;
    else found.push([t, t]);
  }
  return found.map(([one, two]) => one === two ? `${one}` : `${one}\u2013${two}`).join(", ");
}
function periodDetails(t) {
  const { table } = NOW;
  const here = inProgress(t).map((it) => [it, it.risks[t - it.start]])
    .sort((one, other) => middle(other[1]) - middle(one[1]));
  const most = Math.max(...here.map(([, risk]) => middle(risk)), 1e-12);
  const sum = here.reduce((total, [, risk]) => total + middle(risk), 0);
  return [
    el("h2", {}, `Period ${t}`),
    facts(["Mean", el("span", { title: between(table.mean[t - 1]) }, shown(low(table.mean[t - 1])))],
      ["Quantile",
        `${shown(count(table.quantile[t - 1]))}, number ${table.rank[t - 1]} of ${plural(table.scenarios[t - 1],
        "scenario")} in order`],
      ["Greatest", shown(count(table.greatest[t - 1]))], ["Least", shown(count(table.least[t - 1]))],
      ["Excess", el("span", { title: between(table.excess[t - 1]) }, shown(low(table.excess[t - 1])))],
      ["Share of the cost", percent(NOW.shares[t - 1], 2)]),
    el("h3", {}, `Who brings it (${here.length})`),
    here.length ? tableOf(["Work", n("Risk"), n("Of the mean"), ""],
      here.map(([it, risk]) => [workButton(it.place), n(shown(low(risk), 3), "", between(risk)),
      n(sum ? percent(middle(risk) / sum, 0) : "\u2013"), meter(middle(risk) / most)]))
        : el("p", {}, "Nothing is in progress."),
    table.clashes[t - 1].length ? [el("h3", {}, "Meet, and must not"),
      tableOf(["Exclusion", "Works"], table.clashes[t - 1].map((place) =>
      [name(D.exclusions[place][0]),
        [workButton(D.exclusions[place][1]), ", ", workButton(D.exclusions[place][2])]]))] : null,
    D.resources.length
      ? [el("h3", {}, "Loads"),
      tableOf(["Resource", n("Load"), n("Limits"), n("Room")], D.resources.map((title, resource) => {
      const it = NOW.cells[resource][t - 1];
      return [resourceButton(resource, t), n(shown(it.load)), n(`${shown(it.lower)} to ${shown(it.upper)}`),
        n(it.by !== 0n ? roomOf(it) : shown(it.upper - it.load), it.by !== 0n ? "out" : "")];
    }))] : null,
  ];
}
function meter(part) {
  const bar = el("span", { class: "meter" });
  bar.style.width = Math.max(0, 46 * part) + "px";
  return bar;
}
// The works that load a resource in a period, each with its load.
const loadsIn = (resource, t) => inProgress(t).map((one) => [one,
  (one.own.find(([place]) => place === resource) || [0, []])[1][t - one.start] || 0n])
  .filter(([, load]) => load !== 0n);
// Whether a load is between its limits without one of its works.
const isEnough = (it, load) => it.lower <= it.load - load && it.load - load <= it.upper;
const withoutText = (it, load) => isEnough(it, load)
  ? `${load > 0n ? "takes away" : "adds"} ${shown(load > 0n ? load : -load)}, which is enough` : "not enough";
function resourceDetails(resource, t) {
  const row = NOW.cells[resource];
  const parts = [el("h2", {}, name(D.resources[resource]), t === null ? "" : `, period ${t}`)];
  if (t !== null) {
    const it = row[t - 1];
    const here = loadsIn(resource, t).sort((one, other) => float(other[1]) - float(one[1]));
    parts.push(facts(["Load", shown(it.load)], ["Limits", `${shown(it.lower)} to ${shown(it.upper)}`],
      ["Room", it.by !== 0n ? el("span", { class: "out" }, roomOf(it) + " the limit")
        : `${shown(it.upper - it.load)} up, ${shown(it.load - it.lower)} down`],
      WAS && WAS.table ? ["Before", shown(WAS.cells[resource][t - 1].load)] : null),
    el("h3", {}, `Works that load it (${here.length})`),
    here.length ? tableOf(["Work", n("Load"), n("Of it"), ...(it.by !== 0n ? ["Without it"] : [])], here
      .map(([one, load]) => ({ chosen: it.by !== 0n && isEnough(it, load), cells: [workButton(one.place),
        n(shown(load)), n(it.load > 0n ? percent(float(load) / float(it.load), 0) : "\u2013"),
        ...(it.by !== 0n ? [withoutText(it, load)] : [])] })))
        : el("p", {}, "None that is in progress."),
    it.by !== 0n && !here.some(([, load]) => isEnough(it, load))
      ? el("p", { class: "hint-text" }, "No single work is enough to bring it between its limits.") : null);
  }
  const order = row.map((it, period) => [it, period + 1]).sort(([one], [other]) => {
    const part = (it) => it.upper > 0n ? float(it.load) / float(it.upper) : float(it.load - it.upper);
    return part(other) - part(one);
  });
  parts.push(el("h3", {}, "Periods, the fullest first"),
    tableOf([n("Period"), n("Load"), n("Limits"), n("Full")], order.slice(0, 60).map(([it, period]) => ({
    chosen: period === t,
      cells: [n(periodButton(period, resource)), n(shown(it.load)), n(`${shown(it.lower)} to ${shown(it.upper)}`),
      n(filled(it), it.by !== 0n ? "out" : "")] }))));
  return parts;
}
function outside() {
  const faults = [...NOW.faults].sort((one, other) => one.resource - other.resource || one.period - other.period);
  return [
    NOW.faults.length + NOW.clashes.length ? null : el("p", { class: "hint-text" },
      "Nothing: each load is between its limits, and no exclusion is broken."),
    faults.length ? [el("h3", {}, `Loads outside their limits (${faults.length})`),
      tableOf(["Resource", n("Period"), n("Load"), n("Limit"), n("By")], faults.map((it) =>
      [resourceButton(it.resource, it.period), n(periodButton(it.period, it.resource)), n(shown(it.load)),
        n(shown(it.by > 0n ? it.upper : it.lower)),
        n(it.by > 0n ? `\u25b2 ${shown(it.by)}` : `\u25bc ${shown(-it.by)}`, "out")]))] : null,
    NOW.clashes.length ? [el("h3", {}, `Works that meet and must not (${NOW.clashes.length})`),
      tableOf([n("Period"), "Works", "Exclusion"], NOW.clashes.map((it) =>
      [n(periodButton(it.period)),
        [workButton(D.exclusions[it.exclusion][1]), el("br"), workButton(D.exclusions[it.exclusion][2])],
        name(D.exclusions[it.exclusion][0])]))] : null,
  ];
}
function moveText(it) {
  const before = WAS.works[it.place];
  if (before.start === null || it.start === null) return before.start === null ? "new" : "left out";
  const by = it.start - before.start;
  return by < 0 ? `now ${-by} earlier` : `now ${by} later`;
}
// That a work takes more or fewer periods from its new start, where it does.
function lastsText(it) {
  const before = WAS.works[it.place];
  return before.start === null || it.start === null || before.duration === it.duration ? ""
    : `; lasts ${plural(it.duration, "period")}, not ${before.duration}`;
}
function changes() {
  const parts = [el("p", { class: "hint-text" }, "From ", name(OTHER.name), " to ", name(PLAN.name), ".")];
  const better = (by) => by < 0 ? "better" : by > 0 ? "worse" : "";
  const lines = [];
  for (const [key, label] of [["cost", "Cost"], ["mean", "Mean risk"], ["excess", "Expected excess"]]) {
    const [before, now] = [valueOf(OTHER, WAS, key), valueOf(PLAN, NOW, key)];
    if (before !== null && now !== null) lines.push([label, n(shown(before)), n(shown(now)),
      n([signed(now - before), el("small", {}, partOf(now - before, before))], better(now - before))]);
  }
  if (NOW.table && WAS.table) {
    for (const [key, label] of [["faults", "Loads outside"], ["clashes", "Works that meet"]]) {
      const [before, now] = [WAS[key].length, NOW[key].length];
      lines.push([label, n(String(before)), n(String(now)),
        n(signed(BigInt(now - before) * UNIT), better(now - before))]);
    }
  }
  parts.push(el("h3", {}, "What it did"));
  for (const [plan, it] of [[OTHER, WAS], [PLAN, NOW]]) {
    if (!it.table) {
      parts.push(el("p", { class: "hint-text unsaid" }, "Cost, risk and loads can\u2019t be compared: in ",
        name(plan.name), " a start is missing, or isn\u2019t allowed."));
    }
  }
  if (lines.length) parts.push(tableOf(["", n("Before"), n("Now"), n("Difference")], lines));
  const order = [...moved].sort((one, other) => far(other) - far(one) || byText(one.title, other.title));
  parts.push(el("h3", {}, `Moved works (${moved.length})`), moved.length
    ? tableOf(["Work", n("Start before"), n("Start now"), "Change"], order.map((it) =>
    [workButton(it.place), n(WAS.works[it.place].start === null ? "none" : String(WAS.works[it.place].start)),
      n(it.start === null ? "none" : String(it.start)), moveText(it) + lastsText(it)]))
    : el("p", {}, "None: the two plans start each work alike."));
  if (NOW.table && WAS.table && D.resources.length) {
    const loads = D.resources.map((title, resource) => {
      const by = NOW.cells[resource].map((it, t) => it.load - WAS.cells[resource][t].load);
      const changed = by.filter((it) => it !== 0n).length;
      const size = (it) => it < 0n ? -it : it;
      const most = by.reduce((best, it, t) => size(it) > size(by[best]) ? t : best, 0);
      return changed ? [resourceButton(resource), n(String(changed)), n(periodButton(most + 1, resource)),
        n(signed(by[most]))] : null;
    }).filter(Boolean);
    parts.push(el("h3", {}, `Loads that changed (${loads.length})`),
      loads.length ? tableOf(["Resource", n("Periods"), n("Most in"), n("By")], loads) : el("p", {}, "None."));
  }
  return parts;
}
function progress() {
  const rounds = D.progress;
  if (!rounds.length) return [el("p", { class: "hint-text" }, "The file of progress has no round.")];
  const [wide, tall] = [336, 190];
  const last = Math.max(...rounds.map((it) => Number(it[0])), 1e-9);
  const cost = (score) => Number(BigInt(score)) / T / 1e18;
  const all = rounds.flatMap((it) => it.slice(1)).filter((it) => it !== null).map(cost);
  const y = all.length ? scaleOf(Math.min(...all), Math.max(...all), tall, 14) : () => 0;
  const path = (column) => {
    let d = "";
    for (const it of rounds) if (it[column] !== null) d += (d ? `H${(Number(it[0]) / last * wide).toFixed(1)}V`
      : `M${(Number(it[0]) / last * wide).toFixed(1)},`) + y(cost(it[column])).toFixed(1);
    return d && d + `H${wide}`;
  };
  const end = rounds[rounds.length - 1];
  const label = (column, by) => end[column] === null ? null
    : svg("text", { x: wide, y: y(cost(end[column])) + by, "text-anchor": "end" }, shown(costOf(end[column])));
  const gap = (it) => it[1] !== null && it[2] !== null && Number(it[1]) > 0
    ? percent((Number(it[1]) - Number(it[2])) / Number(it[1]), 2) : "\u2013";
  return [
    el("h3", {}, "Cost of the best plan, and the bound, over time"),
    svg("svg", { width: wide, height: tall + 16, role: "img", "aria-label": "Cost and bound over time" },
      svg("path", { class: "score-line", d: path(1) }), svg("path", { class: "bound-line", d: path(2) }),
      label(1, -5), label(2, 12), svg("line", { class: "base", x1: 0, x2: wide, y1: tall, y2: tall }),
      svg("text", { x: 0, y: tall + 13 }, "0 s"),
      svg("text", { x: wide, y: tall + 13, "text-anchor": "end" }, `${last} s`)),
    el("div", { class: "legend" },
      el("span", {}, swatch(svg("path", { class: "score-line", d: "M0,6H22" })), "cost"),
      el("span", {}, swatch(svg("path", { class: "bound-line", d: "M0,6H22" })), "bound")),
    facts(["Rounds", String(rounds.length)], ["Gap at the end", gap(end)]),
    el("h3", {}, "Rounds"), tableOf([n("Seconds"), n("Cost"), n("Bound"), n("Gap")], rounds.slice(-60).map((it) =>
      [n(it[0]), n(it[1] === null ? "\u2013" : shown(costOf(it[1]))),
        n(it[2] === null ? "\u2013" : shown(costOf(it[2]))), n(gap(it))])),
  ];
}
