const LOGS = dataIn("rows"), TABLE = dataIn("table"), CROSS = TABLE.cross;
const of = (row, name) => row.summary ? row.summary[name] : undefined;
const saidBy = (row, word) => (of(row, "verdicts") || []).find(v => v.program.startsWith("replay " + word));
// How often each result came, without its comment.
function results(row) {
  const counts = new Map();
  for (const game of gamesIn(row)) counts.set(resultOf(game), (counts.get(resultOf(game)) || 0) + 1);
  return [...counts].map(([result, n]) => n === 1 ? result : result + " × " + n).join(", ");
}
const sum = get => LOGS.reduce((n, row) => n + (get(row) || 0), 0);

const lateIn = row => of(row, "late") ? latePlaces(row.summary) : [];
const faultsIn = row => of(row, "engineFaults") ? faultPlaces(row.summary) : [];
const forfeitsIn = row => of(row, "forfeits") ? forfeitPlaces(row.summary) : [];
const unansweredIn = row => of(row, "unanswered") ? unansweredPlaces(row.summary) : [];
const gamesIn = row => of(row, "games") || [];
// The verdict on the log as such, and that on its talk.
const words = { check: ["check", "drive", "revive"], talk: ["judge"] };
const said = (row, name) => words[name].map(word => saidBy(row, word)).find(v => v);
function verdict(row, name) {
  const v = said(row, name);
  return v ? v.program + ": " + (v.text || "nothing") : "";
}
function isGood(row, name) {
  const v = said(row, name);
  return !row.fault && (!v || v.good);
}

// What only the log of a bridge tells.
const toldBy = (row, n) => of(row, "kind") === "bridge" ? n : "";

// A column: its head, its text, by which it is sorted, its sort of cell, and the lines that it leads to.
const columns = [
  ["log", row => row.log, "name"],
  ["of", row => of(row, "kind") || ""],
  ["check", row => row.fault || verdict(row, "check"), "verdict"],
  ["talk", row => verdict(row, "talk"), "verdict"],
  ["engine", row => of(row, "engine") || "", "name"],
  ["games", row => toldBy(row, gamesIn(row).length), "number"],
  ["results", results],
  ["moves shown", row => of(row, "kind") === "tap" ? "" : of(row, "shown") ?? "", "number"],
  ["late answers", row => toldBy(row, lateIn(row).length), "number", lateIn],
  ["lost on time", row => toldBy(row, forfeitsIn(row).length), "number", forfeitsIn],
  ["unanswered", row => ["bridge", "tap"].includes(of(row, "kind")) ? unansweredIn(row).length : "", "number", unansweredIn],
  ["engine faults", row => toldBy(row, of(row, "engineFaults")?.length ?? ""), "number", faultsIn],
  ["lines", row => of(row, "count") ?? "", "number"],
];

const fact = (name, value, kind) => { const e = put($("facts"), "div"); put(e, "dt", {}, name); put(e, "dd", { class: kind || "" }, value); };
const bad = LOGS.filter(row => !isGood(row, "check") || !isGood(row, "talk")).length;
fact("logs", LOGS.length);
fact("lawful", LOGS.length - bad, bad ? "" : "good");
if (bad) fact("not lawful, or not read", bad, "bad");
fact("games", TABLE.games.length);
fact("moves shown", sum(row => of(row, "shown")));
for (const [name, placesIn] of [["late answers, not shown", lateIn], ["lost on time", forfeitsIn], ["unanswered", unansweredIn], ["engine faults", faultsIn]]) {
  const count = sum(row => placesIn(row).length);
  fact(name, count, count ? "bad" : "");
}

let sorted = 0, down = false, wanted = "";
function putCell(e, row, [name, text, sort, placesIn]) {
  const head = name === "log", cell = put(e, head ? "th" : "td", { class: ["number", "name"].includes(sort) ? sort : "" });
  if (head) cell.setAttribute("scope", "row");
  if (head && row.link) return put(cell, "a", { href: row.link }, text(row));
  cell.textContent = visible(String(text(row)));
  if (sort === "verdict" && cell.textContent) cell.classList.add(isGood(row, name) ? "good" : "bad");
  for (const [n, place] of placesIn ? placesIn(row).slice(0, 20) : []) {
    cell.append(" ");
    put(cell, "a", { href: row.link + "#" + n, class: "bad" }, place);
  }
  return cell;
}
const lines = LOGS.map((row, k) => {
  const e = put($("logs"), "tr");
  for (const column of columns) putCell(e, row, column);
  return { e, row, k, text: e.textContent.toLowerCase() };
});
function order() {
  const key = columns[sorted][1], side = down ? -1 : 1;
  const compare = (a, b) => String(a).localeCompare(String(b), undefined, { numeric: true });
  lines.sort((a, b) => side * compare(key(a.row), key(b.row)) || a.k - b.k);
  $("logs").append(...lines.map(it => it.e));
  [...$("heads").children].forEach((e, k) => e.setAttribute("aria-sort", k === sorted ? (down ? "descending" : "ascending") : "none"));
}
columns.forEach(([name], k) => {
  const e = put($("heads"), "th", { scope: "col" });
  put(e, "button", { type: "button" }, name).addEventListener("click", () => { down = sorted === k && !down; sorted = k; order(); });
});
$("find").addEventListener("input", e => {
  wanted = e.target.value.toLowerCase();
  let count = 0;
  for (const it of lines) { it.e.hidden = !it.text.includes(wanted); if (!it.e.hidden) count++; }
  $("found").textContent = wanted ? plural(count, "log") : "";
});

