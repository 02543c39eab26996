// WHAT IS CHOSEN: a line, the position that stands there, its move and its point in the plots

let standing = -2;
function bring(box, e) {
  const top = e.getBoundingClientRect().top - box.getBoundingClientRect().top;
  if (top < 0 || top > box.clientHeight - 24) box.scrollTop += top - box.clientHeight / 2;
}
function stand(p) {
  standing = p;
  drawBoard(p);
  const line = p < 0 ? 0 : P[p][0], e = buttonAt.get(line), box = $("moves");
  box.querySelector("[aria-current]")?.removeAttribute("aria-current");
  if (e) {
    e.setAttribute("aria-current", "step");
    // first to its game, which is laid out only where it is seen, and then to the move
    bring(box, e.parentNode);
    requestAnimationFrame(() => bring(box, e));
  }
  const k = shownMoves.findIndex(move => move.line === line);
  if (k >= 0) for (const mark of marks) mark(k);
}
function tellLine() {
  const time = secondsAt(chosen), late = lateAt.has(chosen) ? ": came late, not shown" : "";
  $("where").textContent = "Line " + (chosen + 1) + ", " + (from[letterOf(chosen)] || "no mark") + (time ? ", at " + time + " s" : "") + late;
  $("raw").textContent = visible(LINES[chosen]);
}
function choose(i, scrolls) {
  chosen = Math.max(0, Math.min(LINES.length - 1, i));
  const p = positionAt(chosen + 1);
  if (p !== standing) stand(p);
  if (!LINES.length) return;
  history.replaceState(null, "", "#" + (chosen + 1));
  tellLine();
  markTime(chosen);
  if (scrolls) {
    const box = $("rows"), top = rowOf[chosen] * ROW;
    if (top < box.scrollTop || top > box.scrollTop + box.clientHeight - 2 * ROW) box.scrollTop = top - box.clientHeight / 2;
  }
  show();
}
const here = () => positionAt(chosen + 1);
const goTo = p => { if (p >= 0 && p < P.length) choose(Math.max(0, P[p][0] - 1), true); };
const goBack = () => goTo(here() - (P[here()] && P[here()][0] < chosen + 1 ? 0 : 1));
const byRow = step => choose(rows[Math.max(0, Math.min(rows.length - 1, rowOf[chosen] + step))].at, true);
const buttons = { first: () => goTo(0), before: () => goTo(here() - 1), after: () => goTo(here() + 1), last: () => goTo(P.length - 1) };
for (const id in buttons) $(id).addEventListener("click", buttons[id]);

// FINDING

function find(text) {
  const wanted = text.toLowerCase();
  hits = [];
  hit = -1;
  if (wanted) LINES.forEach((line, i) => { if (line.toLowerCase().includes(wanted)) hits.push(i); });
  $("found").textContent = !wanted ? "" : hits.length ? plural(hits.length, "match", "matches") : "no match";
}
function findNext(step) {
  if (!hits.length) return;
  const first = Math.max(0, hits.findIndex(i => i >= chosen));
  hit = hit < 0 && step > 0 ? first : (hit + step + hits.length) % hits.length;
  const row = rows[rowOf[hits[hit]]];
  if (row.to) unfold(row);
  $("found").textContent = hit + 1 + " of " + hits.length;
  choose(hits[hit], true);
}
$("find").addEventListener("input", e => { find(e.target.value); show(); });
$("find").addEventListener("keydown", e => {
  if (e.key === "Enter") findNext(e.shiftKey ? -1 : 1);
  else if (e.key === "Escape") $("rows").focus();
});
$("next").addEventListener("click", () => findNext(1));
$("back").addEventListener("click", () => findNext(-1));
$("unfold").addEventListener("change", e => {
  allOpen = e.target.checked;
  fold();
  choose(chosen, true);
});

// KEYS

const pageOfRows = () => Math.max(1, Math.floor($("rows").clientHeight / ROW) - 2);
function unfoldHere() {
  const row = rows[rowOf[chosen]];
  if (row.to) unfold(row);
  choose(chosen, true);
}
function toLate() {
  const late = S.late.find(n => n > chosen + 1) || S.late[0];
  if (late) choose(late - 1, true);
}
const keys = {
  ArrowDown: () => byRow(1), ArrowUp: () => byRow(-1), PageDown: () => byRow(pageOfRows()), PageUp: () => byRow(-pageOfRows()),
  Home: () => choose(0, true), End: () => choose(LINES.length - 1, true), ArrowRight: buttons.after, ArrowLeft: goBack,
  Enter: unfoldHere, "/": () => $("find").focus(), n: () => findNext(1), N: () => findNext(-1), l: toLate,
};
addEventListener("keydown", e => {
  const other = e.ctrlKey || e.altKey || e.metaKey || e.target.tagName === "INPUT" || e.target === $("raw") || (e.target.closest("button, a") && e.key === "Enter");
  if (other || !keys[e.key] || !LINES.length) return;
  keys[e.key]();
  e.preventDefault();
});

addEventListener("beforeprint", () => { printing = true; show(); });
addEventListener("afterprint", () => { printing = false; show(); });
const byAddress = () => choose((parseInt(location.hash.slice(1)) || 1) - 1, true);
addEventListener("hashchange", byAddress);
addEventListener("resize", show);
$("rows").addEventListener("scroll", show, { passive: true });
fold();
byAddress();
document.body.dataset.ready = "yes";
