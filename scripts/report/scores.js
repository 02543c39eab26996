// SCORES, and where they stand in a plot of a hundred high

const bend = v => 50 - 42 * Math.asinh(Math.max(-20, Math.min(20, v))) / Math.asinh(20);
const signed = (v, digits = 2) => (v > 0 ? "+" : v < 0 ? "−" : "") + Math.abs(v).toFixed(digits);
const scoreTicks = [9, 2, 0, -2, -9].map(v => [bend(v), signed(v, 0)]);
const lineStyle = { fill: "none", "vector-effect": "non-scaling-stroke" };
function drawTicks(axis, svg, ticks) {
  for (const [at, name] of ticks) {
    put(axis, "span", {}, name).style.top = at * 0.84 + "px";
    draw(svg, "line", { x1: 0, x2: 1000, y1: at, y2: at, stroke: "var(--line)", ...lineStyle });
  }
}
// The line through the points of some number; a gap where there is none.
function pathOf(count, across, placeOf) {
  let path = "", pen = false;
  for (let k = 0; k < count; k++) {
    const y = placeOf(k);
    if (y !== null) path += (pen ? "L" : "M") + across(k).toFixed(1) + " " + y.toFixed(1);
    pen = y !== null;
  }
  return path;
}
