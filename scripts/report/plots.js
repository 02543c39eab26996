// PLOTS of what the engine said last in the search of each shown move

// From the engine's line to the bridge's, by the log's times.
function shareAt(n) {
  let i = n;
  while (i < Math.min(n + 8, LINES.length) && !LINES[i].startsWith("X move ")) i++;
  return timed && i < LINES.length && D.times[i] !== null && D.times[n - 1] !== null ? D.times[i] - D.times[n - 1] : null;
}
function shownMove(search) {
  const p = positionAt(search.to - 1), black = p >= 0 && P[p][1].split(" ")[1] === "b", sign = black ? -1 : 1;
  const [cp, mate, depth, time, speed, clock, otherClock] = D.thinking[search.to];
  const move = { line: search.to, name: moveAt.get(search.to) || search.shown, black, score: null, mate: null, depth, time, speed, clock, otherClock };
  if (mate !== null) Object.assign(move, { mate: Math.abs(mate), winner: mate > 0 ? sign : -sign });
  else if (cp !== null) move.score = sign * cp / 100;
  move.own = shareAt(search.to);
  return move;
}
const shownMoves = D.searches.filter(search => search.kind === "move" && search.shown).map(shownMove);

function scoreText(move) {
  if (move.mate === null) return move.score === null ? "no score" : signed(move.score);
  return (move.mate ? "mate in " + move.mate : "mate") + " for " + (move.winner > 0 ? "White" : "Black");
}
const scoreSeries = {
  name: "Score from White's side, pawns",
  ticks: scoreTicks,
  place: move => move.mate !== null ? (move.winner > 0 ? 3 : 97) : move.score === null ? null : bend(move.score),
  text: scoreText,
  apart: move => move.mate !== null,
};
// A plot of a number from 0 on; `other` is a second number in the same plot.
function linear(name, key, text, other) {
  const keys = other ? [key, other] : [key];
  const top = shownMoves.reduce((most, move) => Math.max(most, ...keys.map(it => move[it] || 0)), 0) || 1;
  const placeOf = it => move => move[it] === null ? null : 96 - 90 * Math.max(0, move[it]) / top;
  const one = v => v === null ? "none" : text(v);
  return {
    name,
    ticks: [[6, text(top)], [51, text(top / 2)], [96, "0"]],
    place: placeOf(key),
    second: other && placeOf(other),
    text: move => one(move[key]) + (other ? ", the other side's " + one(move[other]) : ""),
    apart: () => false,
  };
}
const inUnits = (unit, digits, scale) => v => (v * scale).toFixed(digits) + unit;
const speedText = v => v >= 1e6 ? (v / 1e6).toFixed(2) + " M" : v >= 1e3 ? (v / 1e3).toFixed(0) + " k" : v.toFixed(0);
const clockText = v => (v < 0 ? "−" : "") + Math.floor(Math.abs(v) / 6000) + ":" + (Math.abs(v) % 6000 / 100).toFixed(2).padStart(5, "0");

const across = k => 10 + k * 980 / Math.max(1, shownMoves.length - 1);
function putDots(svg, series) {
  shownMoves.forEach((move, k) => {
    const y = series.place(move), apart = series.apart(move);
    if (y === null || (shownMoves.length > 400 && !apart)) return;
    const dot = apart ? { stroke: "var(--bad)", "stroke-width": 8 } : { stroke: "var(--move)", "stroke-width": 5, "stroke-linecap": "round" };
    draw(svg, "path", { d: "M" + (across(k) - 0.5) + " " + y + "h1", ...dot, ...lineStyle });
  });
}
function putPlot(series) {
  const box = put($("plots"), "div", { class: "plot" }), last = shownMoves[shownMoves.length - 1];
  put(box, "h2", {}, series.name);
  const frame = put(box, "div", { class: "frame" }), axis = put(frame, "div", { class: "axis" });
  const label = series.name + ": " + plural(shownMoves.length, "move") + ", the last " + last.name + " " + series.text(last);
  const svg = draw(frame, "svg", { viewBox: "0 0 1000 100", preserveAspectRatio: "none", role: "img", "aria-label": label });
  drawTicks(axis, svg, series.ticks);
  const draws = (placeOf, stroke, more) => draw(svg, "path", { d: pathOf(shownMoves.length, across, placeOf), stroke, "stroke-width": 1.5, ...more, ...lineStyle });
  draws(k => series.apart(shownMoves[k]) ? null : series.place(shownMoves[k]), "var(--move)", {});
  if (series.second) draws(k => series.second(shownMoves[k]), "var(--ponder)", { "stroke-dasharray": "5 3" });
  putDots(svg, series);
  return followPointer(series, svg, put(box, "output"));
}
// The move under the pointer is told, and chosen by a click. Answers what marks the move of this number.
function followPointer(series, svg, told) {
  const cursor = draw(svg, "line", { y1: 0, y2: 100, stroke: "var(--quiet)", visibility: "hidden", ...lineStyle });
  const near = e => {
    const r = svg.getBoundingClientRect(), x = (e.clientX - r.left) / r.width * 1000;
    return Math.max(0, Math.min(shownMoves.length - 1, Math.round((x - 10) / 980 * (shownMoves.length - 1))));
  };
  const mark = k => {
    for (const end of ["x1", "x2"]) cursor.setAttribute(end, across(k));
    cursor.setAttribute("visibility", "visible");
    told.textContent = shownMoves[k].name + ": " + series.text(shownMoves[k]);
  };
  svg.addEventListener("pointermove", e => mark(near(e)));
  svg.addEventListener("click", e => choose(shownMoves[near(e)].line - 1, true));
  return mark;
}
const marks = [];
if (shownMoves.length) {
  const has = key => shownMoves.some(move => move[key] !== null);
  const series = [scoreSeries, linear("Depth, as the engine says it", "depth", inUnits("", 0, 1)), linear("Time, as the engine says it", "time", inUnits(" s", 2, 0.001))];
  if (has("speed")) series.push(linear("Nodes a second, as the engine says it", "speed", speedText));
  if (has("clock")) series.push(linear("Clock left before the move, as the interface told it; dashed: the other side's", "clock", clockText, "otherClock"));
  if (timed) series.push(linear("The bridge's own share, by the log's times", "own", inUnits(" ms", 2, 1000)));
  marks.push(...series.map(putPlot));
} else put($("plots"), "p", {}, "No move was shown, so there is nothing to plot.");

