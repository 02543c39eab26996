// THE LOG, and what stands above it

const S = dataIn("summary"), D = dataIn("data");
const LINES = D.lines, P = D.positions, timed = D.times.length > 0;
const from = { x: "from the interface", X: "to the interface", u: "from the engine", U: "to the engine", "#": "step" };
const letterOf = i => LINES[i].charAt(0);
const textOf = i => LINES[i].slice(2);
function wordOf(i) {
  const line = LINES[i], end = line.indexOf(" ", 2);
  return end < 0 ? line.slice(2) : line.slice(2, end);
}
const lateAt = new Set(S.late.map(n => n - 1));
document.body.classList.toggle("timed", timed);

function fact(name, value, kind) {
  const e = put($("facts"), "div");
  put(e, "dt", {}, name);
  return put(e, "dd", kind ? { class: kind } : {}, value);
}
for (const v of S.verdicts) {
  const e = fact(v.program + ":", v.text || "nothing", v.good ? "good" : "bad");
  const at = /line (\d+)/.exec(v.text);
  if (at) put(e.parentNode, "a", { href: "#" + at[1], "aria-label": "to line " + at[1] }, "show");
}
const results = S.games.map(game => game.told || game.result);
const counted = [...new Set(results)].map(it => S.games.length === 1 ? it : it + " × " + results.filter(r => r === it).length);
const kinds = { move: "for a move", ponder: "pondering", analyse: "analysing" };
if (S.engine) fact("engine", S.engine);
fact("log of", S.kind + (S.torn ? ", its last line torn" : ""));
const isBridge = S.kind === "bridge", isTap = S.kind === "tap";
if (isBridge) fact("games", S.games.length + (counted.length ? ": " + counted.join(", ") : ""));
if (!isTap) fact("moves shown", S.shown);
if (isBridge || isTap) fact("searches", Object.keys(kinds).map(kind => S.searches[kind] + " " + kinds[kind]).join(", "));
if (isBridge) fact("late answers, not shown", S.late.length, S.late.length ? "bad" : "").id = "late-count";
else fact("late answers", "not told by the log of a " + S.kind);
if (isBridge) fact("lost on time", forfeitsOf(S).length, forfeitsOf(S).length ? "bad" : "").id = "forfeit-count";
if (isBridge || isTap) fact("unanswered", S.unanswered.length, S.unanswered.length ? "bad" : "").id = "unanswered-count";
if (isBridge) fact("engine faults", S.engineFaults.length, S.engineFaults.length ? "bad" : "").id = "fault-count";
if (isBridge) fact("given up by pondering or analysis", S.givenUp);
fact("lines", S.count);
if (S.settings) fact("settings", S.settings);
function putLinks(id, title, places) {
  if (places.length) put($(id), "span", { class: "bad" }, title);
  for (const [n, text] of places.slice(0, 200)) {
    put($(id), "a", { href: "#" + n }, text);
    $(id).append(" ");
  }
}
putLinks("late", "Came late and was not shown: ", latePlaces(S));
putLinks("forfeits", "Lost on time: ", forfeitPlaces(S));
putLinks("unanswered", "Not answered by the engine: ", unansweredPlaces(S));
putLinks("engine-faults", "Engine faults: ", faultPlaces(S));

// SEARCHES, as the judge tells of them; where one was stopped stands in the log

const endOf = search => search.to || LINES.length;
const searchFrom = new Map();
for (const search of D.searches) {
  search.late = search.to !== null && lateAt.has(search.to - 1);
  searchFrom.set(search.from - 1, search);
  for (let i = search.from; search.stopped && !search.stop && i < endOf(search); i++) {
    if (letterOf(i) === "U" && wordOf(i) === "stop") search.stop = i + 1;
  }
}

