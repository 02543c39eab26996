// ROWS: a row a line; runs of lines of one sort are folded into one

const ROW = 20;
const sorts = [
  { name: "lines of thinking", has: i => letterOf(i) === "u" ? wordOf(i) === "info" : letterOf(i) === "X" && /^ *-?\d/.test(textOf(i)) },
  { name: "options", has: i => letterOf(i) === "u" && wordOf(i) === "option" },
  { name: "features", has: i => letterOf(i) === "X" ? wordOf(i) === "feature" : letterOf(i) === "x" && wordOf(i) === "accepted" },
];
const opened = new Set(), rowOf = new Int32Array(LINES.length);
let rows = [], allOpen = false;
const sortOf = i => sorts.findIndex(sort => sort.has(i));

// Behind the last line of the run that begins here. A run of fewer than four lines is none.
function runEnd(i) {
  const sort = allOpen || opened.has(i) ? -1 : sortOf(i);
  let j = i + 1;
  if (sort < 0) return j;
  while (j < LINES.length && (letterOf(j) === "#" || sortOf(j) === sort)) j++;
  while (letterOf(j - 1) === "#") j--;
  return j - i < 4 ? i + 1 : j;
}
function fold() {
  rows = [];
  for (let i = 0; i < LINES.length;) {
    rowOf[i] = rows.length;
    // a step line goes with the line behind it
    if (letterOf(i) === "#" && i + 1 < LINES.length && !allOpen) { i++; continue; }
    const end = runEnd(i);
    rowOf.fill(rows.length, i, end);
    rows.push(end - i > 1 ? { at: i, to: end - 1 } : { at: i });
    i = end;
  }
  $("rows").setAttribute("aria-rowcount", rows.length);
  $("space").style.height = rows.length * ROW + "px";
}
function unfold(row) {
  for (let i = row.at; i <= row.to; i++) opened.add(i);
  fold();
}

const lanes = ["line", ...(timed ? ["seconds"] : []), "interface", "bridge", "engine", "search"];
if (S.kind === "driver" || S.kind === "reviver") lanes[lanes.indexOf("bridge")] = S.kind;
for (const lane of lanes) put($("lanes"), "span", {}, lane);

const started = timed ? D.times.find(time => time !== null) : 0;
const secondsAt = i => !timed || D.times[i] === null ? "" : (D.times[i] - started).toFixed(3);
const brief = text => text.length > 400 ? text.slice(0, 400) + " …" : text;
const signs = { ".": "(has ended)", "?": "(was lost)", "!": S.kind === "reviver" ? "(this life has ended)" : "(a line that is too long)" };
const says = i => (/^[xu][.!?]$/.test(LINES[i]) ? signs[LINES[i][1]] : ({ X: "← ", U: "→ " }[letterOf(i)] || "") + brief(textOf(i)));
const laneOf = i => ({ x: 0, u: 2 }[letterOf(i)] ?? 1);
let chosen = 0, hits = [], hit = -1, printing = false, lifted = 0;

function putLane(e, k, row) {
  const cell = put(e, "span", { role: "gridcell" }), i = row.at;
  if (lateAt.has(i) && k === 1) {
    cell.className = "says";
    cell.textContent = "not shown: late";
  }
  if (k !== laneOf(i)) return;
  cell.className = row.to ? "says fold" : "says";
  cell.textContent = row.to ? "▸ " + (row.to - i + 1) + " " + sorts[sortOf(i)].name : visible(says(i));
  if (!row.to) cell.setAttribute("aria-label", (from[letterOf(i)] || "no mark") + ": " + cell.textContent);
}
function putRow(r) {
  const row = rows[r], i = row.at, isChosen = rowOf[chosen] === r;
  const e = put($("space"), "div", { class: "row", role: "row", id: "row" + r, "aria-rowindex": r + 1 });
  e.classList.toggle("late", lateAt.has(i) && !row.to);
  e.classList.toggle("on", isChosen);
  e.classList.toggle("hit", hit >= 0 && rowOf[hits[hit]] === r);
  e.style.top = (r - lifted) * ROW + "px";
  if (isChosen) e.setAttribute("aria-selected", "true");
  put(e, "span", { class: "n", role: "gridcell" }, i + 1);
  if (timed) put(e, "span", { class: "t", role: "gridcell" }, secondsAt(i));
  for (let k = 0; k < 3; k++) putLane(e, k, row);
  put(e, "span", { class: "kind", role: "gridcell" }, searchFrom.has(i) ? searchFrom.get(i).kind : "");
  e.addEventListener("click", () => {
    if (row.to) unfold(row);
    choose(i);
  });
}
function putBar(first, last, kind) {
  if (last <= first) return;
  const e = put($("space"), "i", { class: "bar " + kind, "aria-hidden": "true" });
  e.style.top = (first - lifted) * ROW + 3 + "px";
  e.style.height = (last - first) * ROW - 6 + "px";
}
function putSearch(search, first, last) {
  const a = rowOf[search.from - 1], b = rowOf[endOf(search) - 1] + 1;
  if (b <= first || a >= last) return;
  const stop = search.stop ? rowOf[search.stop - 1] : b;
  putBar(Math.max(a, first), Math.min(stop, b, last), search.late ? "late" : search.kind);
  putBar(Math.max(stop, first), Math.min(b, last), search.late ? "late" : "stopped");
}
// Draws the rows that are seen; on paper four hundred around the chosen one.
function show() {
  const box = $("rows");
  const first = Math.max(0, printing ? rowOf[chosen] - 200 : Math.floor(box.scrollTop / ROW) - 8);
  const last = Math.min(rows.length, first + (printing ? 400 : Math.ceil(box.clientHeight / ROW) + 16));
  lifted = printing ? first : 0;
  $("space").textContent = "";
  $("space").style.height = (printing ? last - first : rows.length) * ROW + "px";
  for (let r = first; r < last; r++) putRow(r);
  for (const search of D.searches) putSearch(search, first, last);
  if ($("row" + rowOf[chosen])) box.setAttribute("aria-activedescendant", "row" + rowOf[chosen]);
  else box.removeAttribute("aria-activedescendant");
}

