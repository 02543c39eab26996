// MATCHES AND THE CROSS TABLE

const percent = (v, digits = 1) => (100 * v).toFixed(digits) + " %";
const engineNames = match => match.engines.join(" – ");
const playedOf = match => match.counts.reduce((n, it) => n + it, 0);
const pointsOf = match => match.counts[2] + match.counts[1] / 2;
function scoreOf(match) {
  const all = playedOf(match);
  return all ? pointsOf(match) + " of " + all + " (" + percent(match.score) + ")" : "";
}
function eloOf(match) {
  if (!playedOf(match)) return "";
  if (match.elo === null) return match.score > 0.5 ? "+∞" : "−∞";
  return signed(match.elo, 1) + (match.error === null ? "" : " ± " + match.error.toFixed(1));
}
const known = (v, text) => v === undefined || v === null ? "" : text(v);
const testText = test => test.says + ": LLR " + signed(test.ratio) + " in (" + signed(test.low) + ", " + signed(test.high) + ")";
const basis = match => !playedOf(match) ? "" : match.pairs ? "pairs " + match.pairs.join(" ") : "games";
const matchColumns = [
  ["match", engineNames], ["games", match => match.games], ["won", match => match.counts[2]], ["drawn", match => match.counts[1]],
  ["lost", match => match.counts[0]], ["no result", match => match.games - playedOf(match)], ["score", scoreOf], ["Elo difference", eloOf],
  ["LOS", match => known(match.superiority, v => percent(v))], ["counted by", basis],
  ["lost on time", match => match.lostOnTime.join(" – ")],
];
if (TABLE.test) matchColumns.push(["SPRT of " + TABLE.test.elo0 + " against " + TABLE.test.elo1, match => known(match.test, testText)]);
// (columns with one number in each cell, and those of names or moves, which may be long)
const isNumber = name => ["games", "won", "drawn", "lost", "no result", "plies", "White won", "Black won", "White's score"].includes(name);
const isLong = name => ["match", "White", "Black", "on time", "opening", "first eight plies"].includes(name);
const sortOfCell = name => isNumber(name) ? "number" : isLong(name) ? "name" : "";
function putTable(heads, rows, columns, items) {
  for (const [name] of columns) put($(heads), "th", { scope: "col" }, name);
  return items.map(item => {
    const e = put($(rows), "tr");
    columns.forEach(([name, text], k) => put(e, k ? "td" : "th", { class: sortOfCell(name), ...(k ? {} : { scope: "row" }) }, text(item)));
    return e;
  });
}
$("matches").hidden = !TABLE.matches.length;
putTable("match-heads", "match-rows", matchColumns, TABLE.matches);

function cellText(cell) {
  const mine = cell.won + cell.drawn / 2, all = cell.won + cell.drawn + cell.lost;
  const open = cell.open ? ", " + cell.open + " without a result" : "";
  return mine + " of " + all + " (+" + cell.won + " =" + cell.drawn + " −" + cell.lost + ")" + open;
}
function putCross(k) {
  const e = put($("cells"), "tr"), name = CROSS.engines[k];
  put(e, "th", { scope: "row", class: "name" }, name);
  let points = 0, played = 0;
  CROSS.cells[k].forEach((cell, n) => {
    if (!cell) return put(e, "td", {}, "–");
    points += cell.won + cell.drawn / 2;
    played += cell.won + cell.drawn + cell.lost;
    const a = put(put(e, "td"), "a", { href: "#games" }, cellText(cell));
    a.addEventListener("click", () => showGames([name, CROSS.engines[n]]));
  });
  put(e, "td", { class: "number" }, points + " of " + played);
}
if (CROSS.engines.length) {
  $("cross").hidden = false;
  const head = put($("cells"), "tr");
  put(head, "td");
  for (const name of CROSS.engines) put(head, "th", { scope: "col", class: "name" }, name);
  put(head, "th", { scope: "col" }, "points");
  CROSS.engines.forEach((_, k) => putCross(k));
}
