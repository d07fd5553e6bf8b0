// The drawings of loads and risk, each on the screen and on paper.
// ---- loads

function stepped(values, y, from = 1) {
  return values.map((value, n) =>
    `${n ? "L" : "M"}${x(from + n).toFixed(2)},${y(value).toFixed(2)}H${x(from + n + 1).toFixed(2)}`).join("");
}
function scaleOf(least, most, height, pad = 3) {
  const size = most > least ? most - least : 1;
  return (value) => pad + (height - 2 * pad) * (1 - (Math.min(Math.max(value, least), most) - least) / size);
}
function limitsOfScale(resource) {
  const row = NOW.cells[resource];
  const loads = row.map((it) => float(it.load)).concat(WAS && WAS.table
    ? WAS.cells[resource].map((it) => float(it.load)) : []);
  const top = Math.max(...loads, 0);
  const upper = Math.max(...row.map((it) => float(it.upper)));
  const lower = Math.min(...row.map((it) => float(it.lower)));
  const reach = Math.max(Math.abs(top), ...loads.map(Math.abs));
  // (a limit far from all loads is one that is meant as none)
  return [Math.min(0, ...loads, lower < -3 * reach ? 0 : lower),
    Math.max(top, upper > 4 * reach && reach > 0 ? top * 1.25 : upper)];
}
function loadDrawing(resource, height) {
  const row = NOW.cells[resource];
  const [least, most] = limitsOfScale(resource);
  const y = scaleOf(least, most, height, Math.min(7, 0.16 * height));
  const base = y(0);
  const drawing = svg("g", {});
  const loads = row.map((it) => float(it.load));
  put(drawing,
    svg("path", { class: "load-area", d: `M0,${base}V${y(loads[0])}`
    + stepped(loads, y).slice(1).replace(/^[^H]*/, "") + `V${base}Z` }),
    svg("line", { class: "base", x1: 0, x2: width, y1: base, y2: base }));
  if (state.work !== null) {
    const it = NOW.works[state.work];
    const own = it.own.find(([place]) => place === resource);
    if (own) own[1].forEach((load, day) => put(drawing,
      svg("rect", { class: "own-area", x: x(it.start + day), width: step,
      y: Math.min(base, y(float(load))), height: Math.abs(y(float(load)) - base) })));
  }
  put(drawing, svg("path", { class: "limit", d: stepped(row.map((it) => float(it.upper)), y) }));
  if (row.some((it) => it.lower !== 0n)) put(drawing,
    svg("path", { class: "limit", d: stepped(row.map((it) => float(it.lower)), y) }));
  if (WAS && WAS.table) put(drawing,
    svg("path", { class: "other-line", d: stepped(WAS.cells[resource].map((it) => float(it.load)), y) }));
  put(drawing, svg("path", { class: "load-line", d: stepped(loads, y) }));
  row.forEach((it, t) => {
    if (it.by === 0n) return;
    const [one, two] = [y(float(it.load)), y(float(it.by > 0n ? it.upper : it.lower))];
    const [centre, tip] = [x(t + 1) + step / 2, it.by > 0n ? Math.min(one, two) - 2 : Math.max(one, two) + 2];
    const away = it.by > 0n ? -5 : 5;
    put(drawing,
      svg("rect", { class: "outside", x: x(t + 1), width: step, y: Math.min(one, two),
      height: Math.max(1.5, Math.abs(one - two)) }),
      svg("path", { class: "mark", d: `M${centre - 4},${tip}h8l-4,${away}z` }));
  });
  return drawing;
}
const LOAD_HEIGHT = 54;
function drawLoads() {
  if (!NOW.table) return;
  const count = NOW.faults.length;
  at("loads-count").replaceChildren(count ? el("span", { class: "out" }, `${count} outside`) : "");
  at("loads-list").replaceChildren(...D.resources.map((title, resource) => {
    const best = fullest(NOW.cells, resource);
    const it = NOW.cells[resource][best];
    const out = outsideTexts(resource);
    return el("div", { class: "row", "data-resource": resource },
      el("div", { class: "name" },
        el("button", { type: "button", title, on: { click: () => choose({ resource }) } }, name(title)),
        el("small", { title: "the period in which the load comes nearest to its limit" },
          `busiest: period ${best + 1}`),
        el("small", {}, `${shown(it.load)} of ${shown(it.upper)}`)),
      plotOf(LOAD_HEIGHT, loadDrawing(resource, LOAD_HEIGHT), `Load of ${title} by period`),
      el("div", { class: "tail" }, el("strong", {}, filled(it)), el("br"), "of the limit", el("br"),
        out.length ? el("span", { class: "out" }, out.join(" ")) : ""));
  }));
}
// How many loads of a resource are above and below its limits, each with its sign.
function outsideTexts(resource) {
  const mine = NOW.faults.filter((it) => it.resource === resource);
  const [over, under] = [mine.filter((it) => it.by > 0n).length, mine.filter((it) => it.by < 0n).length];
  return [over ? `\u25b2 ${over} above` : "", under ? `\u25bc ${under} below` : ""].filter(Boolean);
}
function plotOf(height, drawing, label) {
  return el("div", { class: "plot" },
    svg("svg", { width, height, viewBox: `0 0 ${width} ${height}`, role: "img", "aria-label": label }, drawing));
}

// ---- risk

const RISK_HEIGHT = 132;
const SHARE_HEIGHT = 46;
function riskScale(height) {
  const all = [NOW,
    WAS].filter((it) => it && it.table).flatMap((it) => [...it.table.greatest, ...it.table.least,
    ...it.table.quantile].map((one) => float(count(one))));
  return scaleOf(Math.min(0, ...all), Math.max(...all, 0), height, 6);
}
function riskDrawing(height) {
  const { table } = NOW;
  const y = riskScale(height);
  const [means, quantiles, greatest] = [table.mean.map(middle), table.quantile.map((it) => float(count(it))),
    table.greatest.map((it) => float(count(it)))];
  const inner = Math.max(step * 0.7, step - 4);
  const drawing = svg("g", {});
  greatest.forEach((value, t) => put(drawing,
    svg("rect", { class: "greatest", x: x(t + 1) + (step - inner) / 2, width: inner,
    y: Math.min(y(0), y(value)), height: Math.abs(y(0) - y(value)) })));
  table.excess.forEach((pair, t) => {
    const value = middle(pair);
    if (value > 0) put(drawing,
      svg("rect", { class: "excess", x: x(t + 1), width: step, y: y(means[t] + value),
      height: Math.max(0, y(means[t]) - y(means[t] + value)) }));
  });
  put(drawing, svg("line", { class: "base", x1: 0, x2: width, y1: y(0), y2: y(0) }));
  if (WAS && WAS.table) put(drawing, svg("path", { class: "other-line", d: stepped(WAS.table.mean.map(middle), y) }));
  put(drawing, svg("path", { class: "mean", d: stepped(means, y) }),
    svg("path", { class: "quantile", d: stepped(quantiles, y) }));
  if (step > 7) quantiles.forEach((value, t) => put(drawing,
    svg("circle", { class: "quantile-dot", cx: x(t + 1) + step / 2, cy: y(value), r: 2.8 })));
  return drawing;
}
function shareDrawing(height) {
  const most = Math.max(...NOW.shares, 0);
  const y = scaleOf(0, most || 1, height, 0);
  const drawing = svg("g", {});
  const top = NOW.shares.indexOf(most);
  NOW.shares.forEach((share, t) => put(drawing,
    svg("rect", { class: t === top ? "share top" : "share", x: x(t + 1) + (step > 5 ? 1 : 0),
    width: Math.max(1, step - (step > 5 ? 2 : 0)), y: y(share), height: Math.max(0, height - y(share)) })));
  put(drawing, svg("line", { class: "base", x1: 0, x2: width, y1: height, y2: height }));
  return drawing;
}
function drawRisk() {
  if (!NOW.table || !T) return;
  const top = NOW.shares.indexOf(Math.max(...NOW.shares));
  const peak = NOW.table.greatest.map((it) => count(it)).reduce((best, it, t, row) => it > row[best] ? t : best, 0);
  at("risk-list").replaceChildren(
    el("div", { class: "row" },
      el("div", { class: "name" },
      el("button", { type: "button", on: { click: () => choose({ period: peak + 1 }) } }, "Risk by period"),
      el("small", {}, `greatest: period ${peak + 1}`), el("small", {}, shown(count(NOW.table.greatest[peak])))),
    plotOf(RISK_HEIGHT, riskDrawing(RISK_HEIGHT), "Mean, quantile and greatest risk by period"),
    el("div", { class: "tail" }, el("strong", {}, shown(NOW.mean[0] / BigInt(T), 3)), el("br"), "mean")),
    el("div", { class: "row" },
      el("div", { class: "name" },
      el("button", { type: "button", on: { click: () => choose({ period: top + 1 }) } }, "Share of the cost"),
      el("small", {}, `most: period ${top + 1}`)),
    plotOf(SHARE_HEIGHT, shareDrawing(SHARE_HEIGHT), "Each period's share of the cost"),
    el("div", { class: "tail" }, el("strong", {}, percent(NOW.shares[top] || 0)), el("br"), "at most")));
}
function swatch(...drawing) {
  return svg("svg", { width: 22, height: 12, viewBox: "0 0 22 12", "aria-hidden": "true" }, ...drawing);
}
// What the looks and signs of works mean.
function drawWorksLegend() {
  const bar = (style, ...text) => el("span", { class: style }, el("i", { class: style, "aria-hidden": "true" }),
    el("div", {}, text));
  const sign = (style, mark, text) => el("span", { class: style }, el("b", { "aria-hidden": "true" }, mark), text);
  put(at("works-legend"),
    moved.length ? bar("was", "where it was in ", name(OTHER.name)) : null,
    NOW.clashing && NOW.clashing.size ? bar("clash", "meets a work that it must not") : null,
    D.exclusions.length ? [sign("apart", "\u25c7", "must not meet the chosen work, and doesn\u2019t"),
      sign("meets", "\u2715", "meets it, and must not")] : null,
    NOW.table && D.resources.length ? bar("loads", "\u25b8 is part of the chosen load") : null);
  at("works-legend").hidden = !at("works-legend").childNodes.length;
}
function drawLegends() {
  drawWorksLegend();
  const line = (style) => swatch(svg("path", { class: style, d: "M0,6H22" }));
  const was = OTHER && WAS.table ? el("span", {}, line("other-line"), "before") : null;
  put(at("loads-legend"),
    el("span", {},
    swatch(svg("rect", { class: "load-area", x: 0, y: 3, width: 22, height: 9 }),
    svg("path", { class: "load-line", d: "M0,3H22" })), "load"),
    el("span", {}, line("limit"), "limits"),
    el("span", {},
      swatch(svg("rect", { class: "outside", x: 4, y: 5, width: 14, height: 7 }),
      svg("path", { class: "mark", d: "M7,4h8l-4,-4z" })), "outside: \u25b2 above, \u25bc below"),
    el("span", {}, swatch(svg("rect", { class: "own-area", x: 2, y: 2, width: 18, height: 9 })), "the chosen work"),
      was);
  put(at("risk-legend"), el("span", {}, line("mean"), "mean"),
    el("span", {},
      swatch(svg("path", { class: "quantile", d: "M0,6H22" }),
      svg("circle", { class: "quantile-dot", cx: 11, cy: 6, r: 3 })), `quantile (${D.quantile})`),
    el("span", {}, swatch(svg("rect", { class: "greatest", x: 4, y: 1, width: 14, height: 11 })), "greatest"),
    el("span", {}, swatch(svg("rect", { class: "excess", x: 3, y: 1, width: 16, height: 11 })), "excess"),
    was && was.cloneNode(true));
  put(document.body, svg("svg", { width: 0, height: 0, "aria-hidden": "true", class: "defs" }, svg("defs", {},
    svg("pattern", { id: "hatch", width: 5, height: 5, patternUnits: "userSpaceOnUse", patternTransform: "rotate(45)" },
      svg("line", { class: "hatch-line", x1: 1, x2: 1, y1: 0, y2: 5 })),
    svg("pattern", { id: "dots", width: 4, height: 4, patternUnits: "userSpaceOnUse" },
      svg("circle", { class: "dot", cx: 2, cy: 2, r: 1.3 })))));
}
