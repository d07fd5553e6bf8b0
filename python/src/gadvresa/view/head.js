// The head of the page: what plan it is, its figures, and the first broken rule.
function drawHead() {
  const report = PLAN.report;
  put(at("title"), name(PLAN.name));
  put(at("subtitle"), "a plan for ", name(D.instance),
    ` \u00b7 ${plural(D.works.length, "work")}, ${plural(T, "period")}, `,
    plural(D.resources.length, "resource"), D.slack ? `, limits widened by ${D.slack}` : "",
    OTHER ? [" \u00b7 compared with ", name(OTHER.name)] : "");
  document.title = PLAN.name;
  const good = report.verdict === "feasible";
  at("verdict").className = good ? "good" : "bad";
  put(at("verdict"), el("span", { "aria-hidden": "true" }, good ? "\u2713" : "\u2715"),
    good ? "Keeps every rule" : "Breaks a rule");
  figures().forEach((it) => put(at("figures"),
    el("div", { class: [it.bad ? "bad" : "", it.tab ? "opens" : ""].join(" ").trim() || null, title: it.hint || null },
    el("dt", {}, it.label), el("dd", {}, it.tab ? opener(it) : it.value),
    it.note ? el("dd", { class: "note" }, it.note) : null)));
  if (PLAN.explained) drawBroken();
}
// The value of a figure as a button, which takes all of the figure's place and opens its part of the side.
const opener = (it) => el("button", { type: "button", "data-opens": it.tab, "aria-label": `${it.label}: ${it.value}`,
  on: { click: () => showTab(it.tab) } }, it.value);
function figures() {
  const report = PLAN.report;
  const found = [];
  const given = report.verdict === "feasible";
  for (const [key, label, note] of [["cost", "Cost", COST_MADE],
    ["mean", "Mean risk", "of a period"], ["excess", "Expected excess", "quantile above mean"]]) {
    const [now, was] = [valueOf(PLAN, NOW, key), OTHER ? valueOf(OTHER, WAS, key) : null];
    if (now === null) continue;
    const ends = given ? `at least ${report[key + "_low"]}, at most ${report[key + "_high"]}` : "";
    const by = was === null ? null : signed(now - was) + (key === "cost" ? partOf(now - was, was) : "");
    found.push({ label, value: shown(now), note: by !== null ? `${by} against ${shown(was)}`
      : OTHER ? "not compared: in the other plan a start is missing, or isn\u2019t allowed" : note,
      hint: [key === "cost" ? COST_MADE : "", ends].filter(Boolean).join("; ") });
  }
  if (D.check) {
    const none = D.check.bound === "none";
    found.push({ label: "Bound", value: none ? "none" : shown(count(D.check.bound_cost)),
      note: none ? "no plan keeps the rules" : "no plan costs less",
      hint: `by ${D.check.certificate}: bound ${D.check.bound}` });
    if (D.check.gap !== undefined) {
      const [gap, score] = [Number(D.check.gap), Number(D.check.score)];
      const part = score > 0 ? percent(Math.ceil(1e4 * gap / score) / 1e4, 2) : "\u2013";
      found.push({ label: "Gap", value: gap === 0 ? "0\u202f%" : part,
        note: gap === 0 ? "the least cost there is" : `${shown(costOf(D.check.gap))} of the cost`,
        hint: `score ${D.check.score} less bound ${D.check.bound} is ${D.check.gap}` });
    }
  }
  if (NOW.table) {
    const over = NOW.faults.filter((it) => it.by > 0n).length;
    const under = NOW.faults.length - over;
    found.push({ label: "Loads outside limits", tab: "outside", value: String(NOW.faults.length),
      bad: NOW.faults.length > 0,
      note: NOW.faults.length ? `${over} above, ${under} below` : "all between their limits" });
    const broken = (key) => new Set(NOW.clashes.map((it) => it[key])).size;
    found.push({ label: "Broken exclusions", tab: "outside", value: String(broken("exclusion")),
      bad: NOW.clashes.length > 0,
      note: NOW.clashes.length ? `in ${plural(broken("period"), "period")}` : `of ${D.exclusions.length}` });
  }
  if (OTHER) found.push({ label: "Moved", tab: "changes", value: String(moved.length),
    note: `of ${plural(D.works.length, "work")}` });
  if (PLAN.report.rounded !== "0") found.push({ label: "Rounded numbers", value: PLAN.report.rounded,
    note: "of the instance" });
  return found;
}
const RULES = {
  S1: (rule) => [name(rule.name), " has no start"],
  S2: (rule) => [name(rule.name), ` starts in ${rule.start}, which isn\u2019t allowed`],
  S3: (rule) => [name(rule.name), ` starts in ${rule.start} and runs past the last period`],
  B1: (rule) => ["The load of ", name(rule.resource), ` in period ${rule.period} is ${shown(count(rule.load))}, `,
    `${shown(count(rule.load) - count(rule.limit))} above its limit of ${shown(count(rule.limit))}`],
  B2: (rule) => ["The load of ", name(rule.resource), ` in period ${rule.period} is ${shown(count(rule.load))}, `,
    `${shown(count(rule.limit) - count(rule.load))} below its limit of ${shown(count(rule.limit))}`],
  X1: (rule) => {
    const [, one, other] = D.exclusions.find((it) => it[0] === rule.exclusion);
    return [name(D.works[one]), " and ", name(D.works[other]), ` must not meet (`, name(rule.exclusion),
      `), and do in period ${rule.period}`];
  },
};
// The parts of a text in which each name is a list of its own.
const parted = (parts) => parts.map((it) => Array.isArray(it) ? name(it[0]) : it);
function drawBroken() {
  const { rule } = PLAN.report;
  const box = at("broken");
  box.hidden = false;
  put(box, el("h2", {}, RULES[rule.rule](rule)),
    el("p", {}, `${rule.rule}, the first broken rule: `, parted(PLAN.explained.meaning)),
    el("p", {}, "To change: ", parted(PLAN.explained.change)),
    el("div", { class: "do" },
      el("button", { class: "button", type: "button", id: "show-rule", on: { click: showRule } }, "Show it"),
      NOW.table ? el("button", { class: "button", type: "button", id: "all-broken",
        on: { click: () => showTab("outside") } },
        "All that is broken") : null));
}
function showRule() {
  const { rule } = PLAN.report;
  if (rule.name !== undefined) choose({ work: D.works.indexOf(rule.name) });
  else if (rule.resource !== undefined) {
    choose({ resource: D.resources.indexOf(rule.resource), period: Number(rule.period) });
  } else choose({ work: D.exclusions.find((it) => it[0] === rule.exclusion)[1] });
  reveal();
}
