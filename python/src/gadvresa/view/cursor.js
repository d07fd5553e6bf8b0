// The cursor of time over all panels, the tip at it, and what keys do.
let hovered = null;
function periodAt(clientX) {
  const t = Math.floor((clientX - at("scale").getBoundingClientRect().left) / step) + 1;
  return t >= 1 && t <= T ? t : null;
}
function placeMarks() {
  for (const [id, t] of [["cursor", hovered], ["chosen-period", state.period]]) {
    at(id).hidden = t === null;
    if (t !== null) at(id).style.transform = `translateX(${leftOf(t)}px)`;
  }
  for (const old of at("scale").querySelectorAll(".at")) old.remove();
  for (const [t, style] of [[state.period, "at chosen"], [hovered, "at"]]) {
    if (t === null) continue;
    const mark = el("span", { class: style }, String(t));
    mark.style.left = x(t) + step / 2 + "px";
    at("scale").append(mark);
  }
  const t = hovered ?? state.period ?? 1;
  at("scale").setAttribute("aria-valuemax", T);
  at("scale").setAttribute("aria-valuenow", t);
  at("scale").setAttribute("aria-valuetext",
    `period ${t}`
    + (NOW.table && T
    ? `, mean risk ${shown(low(NOW.table.mean[t - 1]), 3)}, ${plural(inProgress(t).length, "work")}` : ""));
}
function tipLines(target, t) {
  const work = target.closest(".work");
  if (work) {
    const it = NOW.works[work.place];
    const before = WAS && WAS.works[it.place].start !== it.start ? [`before: ${runText(WAS.works[it.place])}`] : [];
    return [it.title, it.duration > 1 ? `periods ${runText(it)}` : `period ${runText(it)}`, ...before,
      ...(NOW.table ? [`risk ${shown(it.brought, 3)}, which adds ${shown(costAdded(it))} to the cost`] : [])];
  }
  if (t === null || !NOW.table) return null;
  const row = target.closest(".row");
  if (row && row.dataset.resource !== undefined) {
    const it = NOW.cells[row.dataset.resource][t - 1];
    return [`${D.resources[row.dataset.resource]}, period ${t}`, `load ${shown(it.load)}`,
      `limits ${shown(it.lower)} to ${shown(it.upper)}`,
      it.by !== 0n ? roomOf(it) + " the limit" : `${roomOf(it)} to the upper limit`];
  }
  if (row || target.closest("#axis")) {
    return [`period ${t}`, `mean ${shown(low(NOW.table.mean[t - 1]))}`,
      `quantile ${shown(count(NOW.table.quantile[t - 1]))}`,
      `greatest ${shown(count(NOW.table.greatest[t - 1]))}`, `excess ${shown(low(NOW.table.excess[t - 1]))}`,
        `${percent(NOW.shares[t - 1])} of the cost`];
  }
  return null;
}
function onMove(event) {
  hovered = periodAt(event.clientX);
  placeMarks();
  const lines = tipLines(event.target, hovered);
  const tip = at("tip");
  tip.hidden = !lines;
  if (!lines) return;
  tip.replaceChildren(...lines.map((text, n) => el("div", {}, n ? text : el("b", {}, name(text)))));
  const box = tip.getBoundingClientRect();
  tip.style.left = Math.min(event.clientX + 16, innerWidth - box.width - 8) + "px";
  tip.style.top = Math.min(event.clientY + 18, innerHeight - box.height - 8) + "px";
}
function listenToTime() {
  const main = at("main");
  main.addEventListener("pointermove", onMove);
  main.addEventListener("pointerleave", () => { hovered = null; at("tip").hidden = true; placeMarks(); });
  main.addEventListener("click", (event) => {
    const t = periodAt(event.clientX);
    if (t === null || event.target.closest("button, .work, .bar, .name, .tail")) return;
    const row = event.target.closest(".row");
    const resource = row && row.dataset.resource !== undefined ? Number(row.dataset.resource) : null;
    if (row || event.target.closest("#axis")) choose({ period: t, resource });
  });
  at("scale").addEventListener("keydown", (event) => {
    const now = hovered ?? state.period ?? 0;
    const to = { ArrowRight: now + 1, ArrowUp: now + 1, ArrowLeft: now - 1, ArrowDown: now - 1, Home: 1, End: T,
      PageUp: now + 10, PageDown: now - 10 }[event.key];
    if (to !== undefined) {
      event.preventDefault();
      hovered = Math.min(Math.max(to, 1), T);
      if (state.period !== null) choose({ period: hovered, resource: state.resource });
      placeMarks();
    } else if (event.key === "Enter" || event.key === " ") {
      event.preventDefault();
      choose({ period: hovered ?? 1 });
    }
  });
  at("scale").addEventListener("blur", () => { hovered = null; placeMarks(); });
  document.addEventListener("keydown", (event) => {
    if (event.key === "Escape") {
      if (document.activeElement === at("filter") && at("filter").value) { at("filter").value = ""; listWorks(); }
      else choose({});
    } else if (event.key === "/" && document.activeElement !== at("filter")) {
      event.preventDefault();
      at("filter").focus();
    }
  });
}
