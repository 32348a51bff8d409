// The three tables of the page: which columns they have, and what stands in their cells.

import { OPERATOR_WORDS, keyOf, lookOf, operatorWords, severityWords, typeOf } from "./alarms.js";
import { byId, make, setText, told } from "./dom.js";
import { subjectOf } from "./follow.js";
import { Table } from "./table.js";
import { lasting, moment, now } from "./time.js";

function text(cell, value, hint = value) {
  if (cell.firstChild) setText(cell.firstChild, value);
  else cell.append(told(value));
  cell.title = hint;
}

/** What a chip says, and of which severity it has the colour. */
function chip(cell, words, look) {
  if (!cell.firstChild) cell.append(make("span"));
  cell.firstChild.className = `chip ${look}`;
  setText(cell.firstChild, words);
  cell.title = words;
}

function age(cell, { alarm, raised }) {
  setText(cell, lasting(now() - raised));
  cell.title = `raised ${moment(alarm["last-raised"])}`;
}

function what(cell, note) {
  const change = note["ietf-alarms:alarm-notification"];
  const word = change ? change["perceived-severity"] : OPERATOR_WORDS[subjectOf(note).state];
  chip(cell, word, change ? word : "plain");
}

const ALARM = [
  { title: "Severity", name: "severity", fill: (cell, { alarm }) => chip(cell, severityWords(alarm), lookOf(alarm)) },
  { title: "Resource", name: "resource", fill: (cell, { alarm }) => text(cell, alarm.resource) },
  { title: "Type", name: "type", fill: (cell, { alarm }) => text(cell, typeOf(alarm)) },
  { title: "Text", name: "words", fill: (cell, { alarm }) => text(cell, alarm["alarm-text"]) },
  { title: "Age", name: "age", fill: age, isFresh: true },
];
const OPERATOR = { title: "Operator", name: "operator", fill: (cell, { alarm }) => text(cell, operatorWords(alarm)) };
const SHELF = { title: "Shelf", name: "operator", fill: (cell, { alarm }) => text(cell, alarm["shelf-name"]) };

const NOTE = [
  { title: "Number", name: "number", fill: (cell, note) => setText(cell, String(note.number)) },
  { title: "Time", name: "time", fill: (cell, note) => text(cell, moment(note["event-time"]), note["event-time"]) },
  { title: "What", name: "severity", fill: what },
  { title: "Resource", name: "resource", fill: (cell, note) => text(cell, subjectOf(note).resource) },
  { title: "Type", name: "type", fill: (cell, note) => text(cell, typeOf(subjectOf(note))) },
  { title: "Text", name: "words", fill: (cell, note) => text(cell, subjectOf(note)["alarm-text"] ?? subjectOf(note).text ?? "") },
  { title: "By", name: "operator", fill: (cell, note) => text(cell, subjectOf(note).operator ?? "") },
];

const looks = ({ alarm, operator }) => `${alarm["is-cleared"] ? "is-cleared" : ""} ${operator === "none" ? "is-new" : ""}`;

function alarms(name, label, last, chosen) {
  return new Table(byId(name), { label, columns: [...ALARM, last], keyOf: (row) => row.key, looks, chosen });
}

/** The tables. `chosen(key, isShelved, how)` hears of an alarm's row, `noted(key, how)` of the alarm of a note that is opened. */
export const makeTables = ({ chosen, noted }) => ({
  list: alarms("list", "alarms, worst and newest first", OPERATOR, (row, how) => chosen(row.key, false, how)),
  shelf: alarms("shelf", "shelved alarms, worst and newest first", SHELF, (row, how) => chosen(row.key, true, how)),
  log: new Table(byId("log"), {
    label: "notifications, newest first",
    columns: NOTE,
    keyOf: (note) => note.number,
    looks: () => "",
    chosen: (note, how) => how && noted(keyOf(subjectOf(note)), how),
  }),
});
