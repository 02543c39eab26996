// THE GAMES, each once; the scores of both engines; the openings

TABLE.games.forEach((entry, k) => { entry.number = k + 1; });
const playersOf = entry => [entry.white, entry.black];
const gameIn = ([row, k]) => LOGS[row].summary.games[k];
// A game as its first log has it, with what was told in either.
const gameOf = entry => ({ ...gameIn(entry.of[0]), moves: gameIn(entry.of[0]).moves.slice(0, entry.plies), told: entry.told, onTime: entry.onTime });
const openingOf = (start, moves) => (start ? start + ": " : "") + (numbered({ start, moves }).join(" ") || "no move");
const pgnOfEntry = k => pgnOf(gameOf(TABLE.games[k]), playersOf(TABLE.games[k]), k + 1);
const gameColumns = [
  ["game", entry => entry.number], ["White", entry => entry.white], ["Black", entry => entry.black],
  ["result", entry => entry.told || entry.result], ["on time", entry => entry.onTime ? entry[entry.onTime] + " lost" : ""],
  ["plies", entry => entry.plies],
  ["opening", entry => openingOf(gameOf(entry).start, gameOf(entry).moves.slice(0, 8))],
];
// The line of the first move, else that of the result.
const firstLine = game => (game.lines || [])[0] || game.toldAt;
function putGameLinks(e, entry) {
  const cell = put(e, "td", { class: "name links-in" });
  for (const place of entry.of) {
    const row = LOGS[place[0]], at = firstLine(gameIn(place));
    if (row.link) put(cell, "a", { href: row.link + (at ? "#" + at : "") }, row.log);
  }
}
// (beside the number, which stays where it is if the table scrolls)
function putGameButtons(e, entry, k) {
  e.firstChild.append(" ");
  const cell = put(e.firstChild, "span", { class: "buttons" });
  if (entry.of.some(place => gameIn(place).scores)) put(cell, "button", { type: "button" }, "scores").addEventListener("click", () => showDuel(entry));
  offer(cell, "game-" + (k + 1) + ".pgn", () => pgnOfEntry(k));
}
const gameRows = putTable("game-heads", "game-rows", gameColumns, TABLE.games);
put($("game-heads"), "th", { scope: "col" }, "logs");
gameRows.forEach((e, k) => {
  putGameLinks(e, TABLE.games[k]);
  putGameButtons(e, TABLE.games[k], k);
});
const pgnOfAll = () => TABLE.games.map((_, k) => pgnOfEntry(k)).join("");
$("games").hidden = !TABLE.games.length;
$("games-title").textContent = "Games: " + TABLE.games.length;
offer($("games").querySelector(".tools"), "games.pgn", pgnOfAll);

// Leaves those games that have all of these words, or that are of both these engines.
function leaveGames(isWanted) {
  let count = 0;
  gameRows.forEach((e, k) => { e.hidden = !isWanted(TABLE.games[k], e); count += e.hidden ? 0 : 1; });
  $("found-games").textContent = count === gameRows.length ? "" : plural(count, "game");
}
$("find-game").addEventListener("input", e => {
  const text = e.target.value.toLowerCase();
  leaveGames((_, row) => row.textContent.toLowerCase().includes(text));
});
function showGames(engines) {
  $("games").querySelector("details").open = true;
  $("find-game").value = "";
  leaveGames(entry => engines.every(name => playersOf(entry).includes(name)));
}

// BOTH ENGINES' SCORES in one plot

const MATED = 100000;
const scoreAt = (scores, ply) => scores && scores[ply] !== undefined ? scores[ply] : null;
const placeOfScore = v => v === null ? null : Math.abs(v) > MATED / 2 ? (v > 0 ? 3 : 97) : bend(v / 100);
function wordOfScore(v) {
  if (v === null) return "no score";
  return Math.abs(v) <= MATED / 2 ? signed(v / 100) : "mate in " + (MATED - Math.abs(v)) + " for " + (v > 0 ? "White" : "Black");
}
// The scores of one engine: those of its own moves, joined over the moves of the other.
function putScores(svg, name, scores, count, stroke) {
  const plies = [...Array(count).keys()].filter(k => scoreAt(scores, k) !== null);
  const across = k => 10 + plies[k] * 980 / Math.max(1, count - 1);
  draw(svg, "path", { d: pathOf(plies.length, across, k => placeOfScore(scores[plies[k]])), stroke, "stroke-width": 1.5, ...lineStyle });
  for (const k of plies.keys()) draw(svg, "path", { d: "M" + (across(k) - 0.5) + " " + placeOfScore(scores[plies[k]]) + "h1", stroke, "stroke-width": 5, "stroke-linecap": "round", ...lineStyle });
}
function putSides(box, sides) {
  const told = put(box, "p", { class: "key" });
  for (const side of sides) put(told, "span", { class: side.kind }, "● " + side.name);
}
function showDuel(entry) {
  const box = $("duel"), game = gameOf(entry), count = game.moves.length;
  box.textContent = "";
  box.hidden = false;
  const sides = entry.of.map((place, n) => ({ name: entry.engines[n], scores: gameIn(place).scores, kind: n ? "second" : "first" }));
  put(box, "h2", {}, "Game " + entry.number + ", " + playersOf(entry).join(" – ") + ": scores from White's side, pawns");
  putSides(box, sides);
  const frame = put(put(box, "div", { class: "plot" }), "div", { class: "frame" }), axis = put(frame, "div", { class: "axis" });
  const svg = draw(frame, "svg", { viewBox: "0 0 1000 100", preserveAspectRatio: "none", role: "img", "aria-label": "Scores of " + sides.map(it => it.name).join(" and ") });
  drawTicks(axis, svg, scoreTicks);
  for (const side of sides) putScores(svg, side.name, side.scores, count, side.kind === "first" ? "var(--move)" : "var(--ponder)");
  followDuel(svg, put(box, "output"), game, sides);
  box.scrollIntoView({ block: "nearest" });
}
// The move under the pointer is told, with the last score of each engine.
function followDuel(svg, told, game, sides) {
  const words = numbered(game), last = (scores, k) => { while (k >= 0 && scoreAt(scores, k) === null) k--; return k < 0 ? null : scores[k]; };
  svg.addEventListener("pointermove", e => {
    const r = svg.getBoundingClientRect(), x = (e.clientX - r.left) / r.width * 1000;
    const k = Math.max(0, Math.min(words.length - 1, Math.round((x - 10) / 980 * (words.length - 1))));
    told.textContent = words[k] + ": " + sides.map(it => it.name + " " + wordOfScore(last(it.scores, k))).join(", ");
  });
}

// OPENINGS

const openingColumns = [
  ["first eight plies", it => openingOf(it.start, it.moves)], ["games", it => it.games], ["White won", it => it.won], ["drawn", it => it.drawn], ["Black won", it => it.lost],
  ["White's score", it => it.won + it.drawn + it.lost ? percent((it.won + it.drawn / 2) / (it.won + it.drawn + it.lost)) : ""],
];
putTable("opening-heads", "opening-rows", openingColumns, TABLE.openings);
$("openings-title").textContent = "Openings: " + TABLE.openings.length;
