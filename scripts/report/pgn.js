// GAMES AS PGN: the seven tags, the moves, and what the interface told

const tagText = text => '"' + String(text).replace(/["\\]/g, "\\$&").replace(/[\0-\x1f\x7f]/g, " ") + '"';
const RESULTS = ["1-0", "0-1", "1/2-1/2"];
const decided = text => text && RESULTS.includes(text.split(" ")[0]) ? text.split(" ")[0] : "";
const resultOf = game => decided(game.told) || decided(game.result) || "*";
const commentOf = game => (/\{(.*)\}/.exec(game.told || "") || ["", ""])[1].replace(/[{}]/g, "");
// The moves of a game with their numbers.
function numbered(game) {
  const start = (game.start || "").split(" ");
  let number = +start[5] || 1, black = start[1] === "b";
  return game.moves.map((san, n) => {
    const place = black ? (n ? "" : number + "...") : number + ".";
    number += black ? 1 : 0;
    black = !black;
    return (place ? place + " " : "") + san;
  });
}
// Words in lines of at most 79 letters.
function wrapped(words) {
  const lines = [""];
  for (const word of words) {
    const k = lines.length - 1;
    if (lines[k] && lines[k].length + word.length > 78) lines.push(word);
    else lines[k] += (lines[k] ? " " : "") + word;
  }
  return lines.join("\n");
}
function pgnOf(game, names, round) {
  const tags = [["Event", "?"], ["Site", "?"], ["Date", "????.??.??"], ["Round", round], ["White", names[0]], ["Black", names[1]], ["Result", resultOf(game)]];
  if (game.start) tags.push(["SetUp", "1"], ["FEN", game.start]);
  if (game.onTime) tags.push(["Termination", "time forfeit"]);
  const comment = commentOf(game), words = numbered(game).join(" ").split(" ").filter(it => it);
  if (comment) words.push(...("{" + comment + "}").split(" "));
  return tags.map(([name, value]) => "[" + name + " " + tagText(value) + "]\n").join("") + "\n" + wrapped([...words, resultOf(game)]) + "\n\n";
}
function offer(to, name, textOf) {
  put(to, "button", { type: "button", class: "pgn" }, "PGN").addEventListener("click", () => {
    const a = put(document.body, "a", { download: name, hidden: "" });
    a.href = URL.createObjectURL(new Blob([textOf()], { type: "application/x-chess-pgn" }));
    a.click();
    a.remove();
  });
}
