// POSITIONS, by the lines that led to them

const moveAt = new Map(), buttonAt = new Map();
const MEN = { K: "♚", Q: "♛", R: "♜", B: "♝", N: "♞", P: "♟" };
const NAMES = { K: "king", Q: "queen", R: "rook", B: "bishop", N: "knight", P: "pawn" };
const isWhite = man => man < "a";
const rank = man => "KQRBNP".indexOf(man.toUpperCase());

// The last position whose line is not behind this one.
function positionAt(n) {
  let a = 0, b = P.length;
  while (a < b) {
    const c = (a + b) >> 1;
    if (P[c][0] <= n) a = c + 1; else b = c;
  }
  return a - 1;
}
// Column, row and letter of each man; the eighth rank is row 0.
function menIn(fen) {
  const men = [];
  let x = 0, y = 0;
  for (const c of fen.split(" ")[0]) {
    if (c === "/") { y++; x = 0; } else if (c > "0" && c < "9") x += +c; else men.push([x++, y, c]);
  }
  return men;
}
// The squares of the move in a line, if it has one.
function squaresOf(i) {
  const it = / ([a-h][1-8])([a-h][1-8])/.exec(" " + textOf(i));
  const tells = ["usermove", "bestmove"].includes(wordOf(i)) || /^x [a-h][1-8][a-h][1-8]/.test(LINES[i]);
  return it && tells ? [it[1], it[2]] : [];
}
function inWords(p) {
  const [n, fen] = P[p];
  const nameOf = ([x, y, c]) => NAMES[c.toUpperCase()] + " " + "abcdefgh"[x] + (8 - y);
  const side = white => menIn(fen).filter(it => isWhite(it[2]) === white).sort((a, b) => rank(a[2]) - rank(b[2])).map(nameOf).join(", ");
  const move = moveAt.has(n) ? ", " + moveAt.get(n) : "", turn = fen.split(" ")[1] === "w" ? "White" : "Black";
  return "Position after line " + n + move + ". White: " + side(true) + ". Black: " + side(false) + ". " + turn + " is on move.";
}
function drawBoard(p) {
  const b = $("board");
  b.textContent = "";
  $("boards").hidden = p < 0;
  if (p < 0) return;
  const [n, fen] = P[p];
  b.setAttribute("aria-label", inWords(p));
  for (let k = 0; k < 64; k++) {
    const fill = (k + (k >> 3)) % 2 ? "var(--dark)" : "var(--light)";
    draw(b, "rect", { x: 16 + k % 8 * 50, y: (k >> 3) * 50, width: 50, height: 50, fill });
  }
  for (const s of n ? squaresOf(n - 1) : []) {
    const x = 18 + (s.charCodeAt(0) - 97) * 50, y = (56 - s.charCodeAt(1)) * 50 + 2;
    draw(b, "rect", { x, y, width: 46, height: 46, fill: "var(--mark)", stroke: "#5a4a00", "stroke-width": 2 });
  }
  for (let k = 0; k < 8; k++) {
    draw(b, "text", { x: 8, y: k * 50 + 25, class: "name" }, 8 - k);
    draw(b, "text", { x: 41 + k * 50, y: 408, class: "name" }, "abcdefgh"[k]);
  }
  for (const [x, y, c] of menIn(fen)) {
    const ink = isWhite(c) ? { fill: "#fff", stroke: "#222", "stroke-width": 1.4 } : { fill: "#1b1b1b", stroke: "#ddd", "stroke-width": 0.4 };
    draw(b, "text", { x: 41 + x * 50, y: y * 50 + 26, class: "man", "paint-order": "stroke", ...ink }, MEN[c.toUpperCase()] + "\ufe0e");
  }
  $("fen").textContent = (n ? "line " + n : "start") + ": " + fen;
}

// THE GAMES AND THEIR MOVES

function putMove(p, san, place, line) {
  if (!line) return put(p, "span", {}, san);
  const shown = letterOf(line - 1) === "u", title = place + " " + san + ", line " + line + (shown ? ", shown by the engine" : "");
  const e = put(p, "button", { type: "button", title, class: shown ? "shown" : "" }, san);
  moveAt.set(line, place + " " + san);
  buttonAt.set(line, e);
  e.addEventListener("click", () => choose(line - 1, true));
  return e;
}
function putGame(game, k) {
  const p = put($("moves"), "p"), start = (game.start || "").split(" ");
  let number = +start[5] || 1, black = start[1] === "b";
  put(p, "b", {}, "Game " + (k + 1) + (game.side ? ", the engine is " + game.side : "") + ": ");
  game.moves.forEach((san, n) => {
    const place = number + (black ? "…" : ".");
    if (!black || !n) put(p, "span", { class: "no" }, place + " ");
    putMove(p, san, place, game.lines && game.lines[n]);
    p.append(" ");
    number += black ? 1 : 0;
    black = !black;
  });
  put(p, "b", {}, game.result + (game.told && game.told !== game.result ? " (the interface: " + game.told + ")" : ""));
}
S.games.forEach(putGame);
const onTimeOf = k => S.forfeits.some(it => it.game === k + 1);
const sidesOf = game => game.side === "black" ? ["?", S.engine || "?"] : [game.side ? S.engine || "?" : "?", "?"];
const pgnOfLog = () => S.games.map((game, k) => pgnOf({ ...game, onTime: onTimeOf(k) }, sidesOf(game), k + 1)).join("");
if (S.games.length) offer($("steps"), "games.pgn", pgnOfLog);
if (!S.games.length) put($("moves"), "p", {}, S.kind === "bridge" ? "No moves were played." : "Moves are told of logs of bridge alone.");

