// The filters of the list.

import { SEVERITIES, passes } from "./alarms.js";
import { byId, make } from "./dom.js";

const CLEARED = [["all", "all"], ["standing", "standing"], ["cleared", "cleared"]];
const OPERATOR = [["all", "all"], ["none", "new"], ["ack", "acknowledged"], ["closed", "closed"]];

function choices(place, name, values) {
  const choice = ([value, label], number) =>
    make("label", {}, make("input", { type: "radio", name, value, checked: number === 0 }), label);
  byId(place).append(...values.map(choice));
}

export class Filters {
  /** `changed` hears when they are others. */
  constructor(changed) {
    this.form = byId("filters");
    this.changed = changed;
    this.boxes = new Map(SEVERITIES.map((severity) => [severity, make("input", { type: "checkbox", checked: true })]));
    byId("filter-severity").append(...[...this.boxes].map(([severity, box]) => make("label", {}, box, severity)));
    choices("filter-cleared", "cleared", CLEARED);
    choices("filter-operator", "operator", OPERATOR);
    this.form.addEventListener("input", () => changed());
    this.form.addEventListener("reset", () => setTimeout(changed));
    this.form.addEventListener("submit", (event) => event.preventDefault());
  }

  /** Whether a row passes. */
  get passes() {
    const { cleared, operator } = this.form.elements;
    const severities = new Set([...this.boxes].filter(([, box]) => box.checked).map(([severity]) => severity));
    return passes({ severities, cleared: cleared.value, operator: operator.value, text: byId("filter-text").value });
  }

  /** The one severity that is let through, or null. */
  get alone() {
    const checked = [...this.boxes].filter(([, box]) => box.checked);
    return checked.length === 1 ? checked[0][0] : null;
  }

  /** Lets one severity through alone; all, where it was alone already. */
  choose(severity) {
    const isAlone = this.alone === severity;
    for (const [name, box] of this.boxes) box.checked = isAlone || name === severity;
    this.changed();
  }
}
