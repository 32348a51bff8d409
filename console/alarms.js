// What an alarm says of itself: its order on the list, its words, which filters let it through.

export const SEVERITIES = ["critical", "major", "minor", "warning", "indeterminate"];

export const OPERATOR_WORDS = {
  none: "none", ack: "acknowledged", closed: "closed", shelved: "shelved", "un-shelved": "unshelved",
};

export const keyOf = (alarm) => JSON.stringify([alarm.resource, alarm["alarm-type-id"], alarm["alarm-type-qualifier"]]);

export const typeOf = (alarm) =>
  alarm["alarm-type-qualifier"] ? `${alarm["alarm-type-id"]} ${alarm["alarm-type-qualifier"]}` : alarm["alarm-type-id"];

export const lastAction = (alarm) => alarm["operator-state-change"]?.[0];

export const operatorState = (alarm) => lastAction(alarm)?.state ?? "none";

/** The filters know three states: what was shelved and came back has none. */
const filteredState = (alarm) => (["ack", "closed"].includes(operatorState(alarm)) ? operatorState(alarm) : "none");

/** An alarm with what ordering and filtering ask of it again and again. */
export function rowOf(alarm) {
  const action = lastAction(alarm);
  const texts = [alarm.resource, typeOf(alarm), alarm["alarm-text"], action?.operator ?? "", action?.text ?? ""];
  return {
    alarm,
    key: keyOf(alarm),
    raised: Date.parse(alarm["last-raised"]),
    rank: SEVERITIES.indexOf(alarm["perceived-severity"]) + (alarm["is-cleared"] ? SEVERITIES.length : 0),
    operator: filteredState(alarm),
    search: texts.join("\n").toLowerCase(),
  };
}

/** What stands before what is cleared; then the worst first; of these the newest, by when they were raised. */
export const worstAndNewest = (a, b) => a.rank - b.rank || b.raised - a.raised || (a.key < b.key ? -1 : 1);

/** Which rows the filters let through. */
export function passes(filters) {
  const words = filters.text.toLowerCase().split(/\s+/).filter(Boolean);
  return (row) =>
    filters.severities.has(row.alarm["perceived-severity"]) &&
    (filters.cleared === "all" || (filters.cleared === "cleared") === row.alarm["is-cleared"]) &&
    (filters.operator === "all" || filters.operator === row.operator) &&
    words.every((word) => row.search.includes(word));
}

/** The summary of some rows: for each severity how many stand, of these how many nobody has closed, and how many are cleared. */
export function summaryOf(rows) {
  const summary = new Map(SEVERITIES.map((severity) => [severity, { standing: 0, open: 0, cleared: 0 }]));
  for (const { alarm, operator } of rows) {
    const count = summary.get(alarm["perceived-severity"]);
    if (alarm["is-cleared"]) count.cleared += 1;
    else {
      count.standing += 1;
      if (operator === "none") count.open += 1;
    }
  }
  return summary;
}

/** How severity and clearance are said. */
export const severityWords = (alarm) => `${alarm["is-cleared"] ? "cleared, was " : ""}${alarm["perceived-severity"]}`;

/** Of which severity an alarm has the colour. */
export const lookOf = (alarm) => (alarm["is-cleared"] ? "cleared" : alarm["perceived-severity"]);

export function operatorWords(alarm) {
  const action = lastAction(alarm);
  if (!action || action.state === "none") return "";
  return `${OPERATOR_WORDS[action.state]} by ${action.operator}`;
}

/** Whether one of two resources stands below the other, by their steps or arcs. */
export function isRelated(one, other) {
  const [short, long] = one.length < other.length ? [one, other] : [other, one];
  return long.startsWith(short) && (long.length === short.length || "/.[:-".includes(long[short.length]));
}
