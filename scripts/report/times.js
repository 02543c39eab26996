// REAL TIME, to scale, if the log has times

let markTime = () => {};
function putTimes() {
  // a clock that was set back leaves times before the first one
  const known = D.times.filter(time => time !== null), most = known.reduce((a, b) => Math.max(a, b));
  const least = known.reduce((a, b) => Math.min(a, b)), span = Math.max(most - least, 1e-6);
  const at = time => (time - least) / span * 1000;
  const label = "Real time: " + plural(LINES.length, "line") + " in " + span.toFixed(1) + " seconds";
  const svg = draw($("strip"), "svg", { viewBox: "0 0 1000 62", preserveAspectRatio: "none", role: "img", "aria-label": label });
  for (const search of D.searches) {
    const a = D.times[search.from - 1], b = D.times[endOf(search) - 1], late = search.late;
    if (a === null || b === null) continue;
    const size = { x: at(a), width: Math.max(1, at(b) - at(a)), y: late ? 44 : 49, height: late ? 18 : 9 };
    draw(svg, "rect", { ...size, fill: late ? "var(--bad)" : "var(--" + search.kind + ")" });
  }
  ["x", "XU", "u"].forEach((letters, lane) => {
    const columns = new Set();
    D.times.forEach((time, i) => { if (time !== null && letters.includes(letterOf(i))) columns.add(Math.round(at(time))); });
    draw(svg, "path", { d: [...columns].map(x => "M" + x + " " + (2 + lane * 15) + "v11").join(""), stroke: "var(--ink)", ...lineStyle });
  });
  const now = draw(svg, "line", { y1: 0, y2: 62, stroke: "var(--bad)", id: "now", ...lineStyle });
  markTime = i => { if (D.times[i] !== null) for (const end of ["x1", "x2"]) now.setAttribute(end, at(D.times[i])); };
  svg.addEventListener("click", e => {
    const r = svg.getBoundingClientRect(), wanted = least + (e.clientX - r.left) / r.width * span, off = i => Math.abs(D.times[i] - wanted);
    choose(D.times.reduce((best, time, i) => time !== null && off(i) < off(best) ? i : best, 0), true);
  });
  const scale = put($("strip"), "div", { class: "scale" });
  for (let k = 0; k <= 4; k++) put(scale, "span", {}, (span * k / 4).toFixed(span < 10 ? 2 : 0) + " s");
  $("strip").hidden = false;
}
if (timed) putTimes();

