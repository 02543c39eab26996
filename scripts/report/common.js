"use strict";
const $ = id => document.getElementById(id);
const SVG = "http://www.w3.org/2000/svg";
const dataIn = id => JSON.parse($(id).textContent);

// Every text of a log goes through textContent: none can become markup. Control characters are shown as their pictures, and
// signs that are not seen, or that turn the order of others round, by their numbers.
const UNSEEN = /[\x80-\x9f\xad\u061c\u200b-\u200f\u2028-\u202e\u2060-\u206f\ufeff\ufff9-\ufffb]/g;
const pictureOf = it => it === "\x7f" ? "\u2421" : String.fromCharCode(0x2400 + it.charCodeAt(0));
const numberOf = it => "\\u" + it.charCodeAt(0).toString(16).padStart(4, "0");
const visible = text => text.replace(/[\0-\x08\x0b-\x1f\x7f]/g, pictureOf).replace(UNSEEN, numberOf);
function put(to, tag, set = {}, text) {
  const e = document.createElement(tag);
  for (const k in set) if (k === "class") e.className = set[k]; else e.setAttribute(k, set[k]);
  if (text !== undefined) e.textContent = visible(String(text));
  to.append(e);
  return e;
}
function draw(to, tag, set = {}, text) {
  const e = document.createElementNS(SVG, tag);
  for (const k in set) e.setAttribute(k, set[k]);
  if (text !== undefined) e.textContent = text;
  to.append(e);
  return e;
}
// Lines that a page leads to: the number of each, and what stands in its link.
const latePlaces = summary => summary.late.map(n => [n, "line " + n + (summary.lateOnTime.includes(n) ? ", in a game lost on time" : "")]);
const placesOf = found => found.map(it => [it.line, it.what + ", line " + it.line]);
const faultPlaces = summary => placesOf(summary.engineFaults);
const unansweredPlaces = summary => placesOf(summary.unanswered);
// The games that the engine lost on time; where its side is not known, those in which either side did.
const forfeitsOf = summary => summary.forfeits.filter(it => it.own !== false);
const forfeitPlaces = summary => forfeitsOf(summary).map(it => [it.line, "game " + it.game + " (" + it.side + "), line " + it.line]);
const plural = (n, one, many) => n + " " + (n === 1 ? one : many || one + "s");

