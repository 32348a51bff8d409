// What the log tells of the last hours, as columns: status changes by severity upwards, clears downwards.

import { draw } from "./dom.js";
import { SEVERITIES } from "./alarms.js";
import { clock, now } from "./time.js";

const MINUTE = 60000;
const HEIGHT = 118;
const LEFT = 30;
const TOP = 8;
const FOOT = 16;
const WIDTHS = { 1: MINUTE, 6: 5 * MINUTE, 24: 15 * MINUTE };
const TICKS = { 1: 10 * MINUTE, 6: 60 * MINUTE, 24: 240 * MINUTE };
const KINDS = [...SEVERITIES, "cleared"];

/** How many notes of each kind there are in each stretch of time; the last stretch is the one that is under way. */
export function columnsOf(notes, hours, end) {
  const width = WIDTHS[hours];
  const last = Math.floor(end / width);
  const count = (hours * 60 * MINUTE) / width;
  const columns = Array.from({ length: count }, () => Object.fromEntries(KINDS.map((kind) => [kind, 0])));
  for (const note of notes) {
    const change = note["ietf-alarms:alarm-notification"];
    const column = change && columns[count - 1 - (last - Math.floor(Date.parse(note["event-time"]) / width))];
    if (column) column[change["perceived-severity"]] += 1;
  }
  return columns;
}

const raisedIn = (column) => SEVERITIES.reduce((sum, severity) => sum + column[severity], 0);

function words(columns, hours) {
  const totals = KINDS.map((kind) => `${columns.reduce((sum, column) => sum + column[kind], 0)} ${kind}`);
  return `Notifications of the last ${hours === 1 ? "hour" : `${hours} hours`}: ${totals.join(", ")}.`;
}

/** The pieces of one column: the worst at the foot. */
function pieces(column, x, width, zero, unit) {
  let y = zero;
  const up = [...SEVERITIES].filter((severity) => column[severity] > 0).map((severity) => {
    const height = column[severity] * unit;
    y -= height;
    return draw("rect", { class: severity, x, y, width, height });
  });
  if (column.cleared > 0) up.push(draw("rect", { class: "cleared", x, y: zero + 1, width, height: column.cleared * unit }));
  return up;
}

function ticks(hours, end, scale, width) {
  const labels = [];
  const step = TICKS[hours];
  const away = new Date(end).getTimezoneOffset() * MINUTE;
  for (let time = Math.floor((end - away) / step) * step + away; scale(time) > LEFT; time -= step) {
    if (scale(time) > width - 16) continue;
    labels.push(draw("line", { class: "tick", x1: scale(time), x2: scale(time), y1: TOP, y2: HEIGHT - FOOT }));
    labels.push(draw("text", { x: scale(time), y: HEIGHT - 3, "text-anchor": "middle" }, clock(time).slice(0, 5)));
  }
  return labels;
}

/** Covers the time of notes that are no longer kept. */
const unkept = (width) =>
  draw("rect", { class: "unkept", x: LEFT, y: TOP, width, height: HEIGHT - FOOT - TOP }, draw("title", {}, "no longer kept"));

/** Draws the chart. `kept` is the time of the oldest note where older ones are no longer kept, else none. */
export function showChart(place, notes, hours, kept) {
  const end = (Math.floor(now() / WIDTHS[hours]) + 1) * WIDTHS[hours];
  const begin = end - hours * 60 * MINUTE;
  const columns = columnsOf(notes, hours, end - 1);
  const width = Math.max(260, place.clientWidth);
  const scale = (time) => LEFT + ((time - begin) / (end - begin)) * (width - LEFT);
  const most = Math.max(1, ...columns.map(raisedIn));
  const least = Math.max(0, ...columns.map((column) => column.cleared));
  const unit = (HEIGHT - TOP - FOOT) / (most + least);
  const zero = TOP + most * unit;
  const broad = (width - LEFT) / columns.length;
  const drawn = (column, number) => pieces(column, LEFT + number * broad + 0.5, Math.max(1, broad - 1), zero, unit);
  const label = (y, number) => draw("text", { x: LEFT - 5, y, "text-anchor": "end" }, String(number));
  const frame = { viewBox: `0 0 ${width} ${HEIGHT}`, width, height: HEIGHT, role: "img", "aria-label": words(columns, hours) };
  place.replaceChildren(draw("svg", frame,
    ...ticks(hours, end, scale, width),
    ...columns.flatMap(drawn),
    draw("line", { class: "axis", x1: LEFT, x2: width, y1: zero, y2: zero }),
    label(TOP + 8, most),
    least > 0 ? label(HEIGHT - FOOT, least) : null,
    kept > begin ? unkept(scale(Math.min(kept, end)) - LEFT) : null));
}
