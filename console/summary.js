// The summary as a bar by severity, and below it a button for each severity, which shows that one alone.

import { make } from "./dom.js";
import { SEVERITIES } from "./alarms.js";

const words = (summary) =>
  SEVERITIES.map((severity) => {
    const { standing, open, cleared } = summary.get(severity);
    return `${severity}: ${standing} standing, ${open} of them new, ${cleared} cleared`;
  }).join("; ");

function bar(summary) {
  const parts = SEVERITIES.filter((severity) => summary.get(severity).standing > 0).map((severity) => {
    const { standing } = summary.get(severity);
    const part = make("span", { class: `part ${severity}` }, String(standing));
    part.style.flexGrow = standing;
    return part;
  });
  if (parts.length === 0) parts.push(make("span", { class: "part nothing" }, "no alarm stands"));
  return make("div", { class: "bar", role: "img", "aria-label": words(summary) }, ...parts);
}

function tile(severity, { standing, open, cleared }, isAlone, choose) {
  const said = { "data-severity": severity, "aria-pressed": String(isAlone), title: `show ${severity} alone` };
  return make("button", { type: "button", class: "tile", ...said, onclick: () => choose(severity) },
    make("span", { class: `chip ${severity}` }, severity),
    make("strong", {}, String(standing)),
    make("small", {}, `${open} new`),
    make("small", {}, `${cleared} cleared`));
}

/** Shows a summary; `alone` is the one severity that is shown, if it is one. */
export function showSummary(place, summary, alone, choose) {
  const focused = place.contains(document.activeElement) && document.activeElement.dataset.severity;
  const tiles = SEVERITIES.map((severity) => tile(severity, summary.get(severity), severity === alone, choose));
  place.replaceChildren(bar(summary), make("div", { class: "tiles" }, ...tiles));
  if (focused) place.querySelector(`[data-severity=${focused}]`).focus();
}
