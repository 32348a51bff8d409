// One alarm: what it is, its two histories as a drawn time line and as lists, other alarms at related resources, and what
// can be done.

import { byId, draw, make, told } from "./dom.js";
import { OPERATOR_WORDS, lookOf, severityWords, typeOf } from "./alarms.js";
import { lasting, moment, now } from "./time.js";

const WIDTH = 380;
const HEIGHT = 92;
const EDGE = 6;
const SHOWN = 20;

const fact = (name, ...value) => [make("dt", {}, name), make("dd", {}, ...value)];

const timeOf = (stamp) =>
  make("time", { datetime: stamp, title: stamp }, `${moment(stamp)}, ${lasting(now() - Date.parse(stamp))} ago`);

const chipOf = (alarm) => make("span", { class: `chip ${lookOf(alarm)}` }, severityWords(alarm));

// --- the time line

/** The stretches of the status history, oldest first: severity, begin, end. */
function stretches(changes, end) {
  const old = [...changes].reverse();
  return old.map((change, number) => {
    const next = old[number + 1];
    return { severity: change["perceived-severity"], begin: Date.parse(change.time), end: next ? Date.parse(next.time) : end };
  });
}

function statusLane(changes, scale, now) {
  return stretches(changes, now).map(({ severity, begin, end }) => {
    const x = scale(begin);
    const [y, height] = severity === "cleared" ? [30, 6] : [20, 16];
    const words = `${severity}, ${moment(begin)} to ${end === now ? "now" : moment(end)}`;
    return draw("rect", { class: severity, x, y, height, width: Math.max(2, scale(end) - x) }, draw("title", {}, words));
  });
}

function operatorLane(actions, scale) {
  return actions.map(({ state, operator, time }) =>
    draw("path", { class: `mark ${state}`, d: `M${scale(Date.parse(time))} 52 l6 12 h-12 z` },
      draw("title", {}, `${OPERATOR_WORDS[state]} by ${operator}, ${moment(time)}`)));
}

/** Both histories over the time from the first that is kept until now. */
function timeLine(statuses, actions) {
  const end = now();
  const begin = Math.min(...[...statuses, ...actions].map(({ time }) => Date.parse(time)), end - 1000);
  const scale = (time) => EDGE + ((time - begin) / (end - begin)) * (WIDTH - 2 * EDGE);
  const axis = (y) => draw("line", { class: "axis", x1: EDGE, x2: WIDTH - EDGE, y1: y, y2: y });
  const words = `${statuses.length} status changes and ${actions.length} operator states since ${moment(begin)}, as listed below`;
  return draw("svg", { class: "timeline", viewBox: `0 0 ${WIDTH} ${HEIGHT}`, role: "img", "aria-label": words },
    draw("text", { x: EDGE, y: 13 }, "status"), axis(36), ...statusLane(statuses, scale, end),
    draw("text", { x: EDGE, y: 49 }, "operators"), axis(64), ...operatorLane(actions, scale),
    draw("text", { x: EDGE, y: 84 }, moment(begin)),
    draw("text", { x: WIDTH - EDGE, y: 84, "text-anchor": "end" }, "now"));
}

// --- the lists

function statusHistory(statuses) {
  const items = statuses.map(({ time, "perceived-severity": severity, "alarm-text": text }) =>
    make("li", {}, timeOf(time), make("span", { class: `chip ${severity}` }, severity), told(text, { class: "said" })));
  return make("ol", { class: "history", "aria-label": "status changes, newest first" }, ...items);
}

function operatorHistory(actions) {
  const items = actions.map(({ time, state, operator, text }) =>
    make("li", {}, timeOf(time), make("span", { class: "chip plain" }, OPERATOR_WORDS[state]),
      make("span", {}, "by ", told(operator)), text ? told(text, { class: "said" }) : null));
  if (items.length === 0) items.push(make("li", {}, "no operator has acted"));
  return make("ol", { class: "history", "aria-label": "operator states, newest first" }, ...items);
}

function relatedItem({ alarm, key }, open) {
  const button = make("button", { type: "button", class: "link", onclick: () => open(key, "key") },
    chipOf(alarm), told(alarm.resource), told(typeOf(alarm)), told(alarm["alarm-text"]));
  return make("li", {}, button);
}

function relatedList(related, open) {
  const items = related.slice(0, SHOWN).map((row) => relatedItem(row, open));
  if (items.length === 0) items.push(make("li", {}, "no other alarm there, above or below"));
  if (related.length > SHOWN) items.push(make("li", {}, `and ${related.length - SHOWN} more`));
  return make("ul", { class: "history", "aria-label": "other alarms, worst and newest first" }, ...items);
}

function particulars(alarm, type) {
  return make("dl", {},
    ...fact("Type", told(typeOf(alarm))),
    ...(type ? fact("Meaning", told(type.description), type["will-clear"] ? "" : " (it never clears by itself)") : []),
    ...fact("Event type", alarm["ietf-alarms-x733:event-type"] ?? "other"),
    ...(alarm["shelf-name"] ? fact("Shelf", told(alarm["shelf-name"])) : []),
    ...fact("Raised", timeOf(alarm["last-raised"])),
    ...fact("Changed", timeOf(alarm["last-changed"])),
    ...(alarm["time-created"] ? fact("Created", timeOf(alarm["time-created"])) : []));
}

function facts({ alarm }, { related, type, open }) {
  const statuses = alarm["status-change"] ?? [];
  const actions = alarm["operator-state-change"] ?? [];
  return [
    make("p", { class: "headline" }, chipOf(alarm), told(alarm["alarm-text"], { class: "said" })),
    particulars(alarm, type),
    make("h3", {}, "Time line"), timeLine(statuses, actions),
    make("h3", {}, "Status changes"), statusHistory(statuses),
    make("h3", {}, "Operator states"), operatorHistory(actions),
    make("h3", {}, "Other alarms at this and related resources"), relatedList(related, open),
  ];
}

// --- the pane

/** The pane. What the user has begun to write stays while the alarm changes. */
export class Detail {
  constructor(actions, close) {
    Object.assign(this, { actions, close, key: null, pane: byId("detail") });
  }

  /** Shows a row, of the list or the shelf; `around` has its related rows, its type in the inventory, and how to open another. */
  show(row, isShelved, around) {
    if (this.key !== row.key || this.isShelved !== isShelved) this.build(row, isShelved);
    this.facts.replaceChildren(...facts(row, around));
    this.pane.hidden = false;
  }

  build(row, isShelved) {
    Object.assign(this, { key: row.key, isShelved, facts: make("div") });
    const close = make("button", { type: "button", class: "quiet", "aria-label": "close the detail", onclick: this.close }, "×");
    this.pane.replaceChildren(
      make("div", { class: "line" }, make("h2", {}, told(row.alarm.resource)), close),
      make("div", { class: "actions" }, ...(isShelved ? this.ofShelf(row) : this.ofList(row))),
      this.facts);
    this.pane.scrollTop = 0;
  }

  ofList(row) {
    const placeholder = "what others should know";
    const text = make("input", { id: "action-text", maxlength: 255, autocomplete: "off", placeholder });
    const setting = (label, state) => {
      const set = () => this.actions.setState(row, state, text.value);
      return make("button", { type: "button", "data-state": state, onclick: set }, label);
    };
    const shelve = make("button", { type: "button", id: "shelve", onclick: () => this.actions.shelve(row) }, "Shelve …");
    const buttons = [setting("Acknowledge", "ack"), setting("Close alarm", "closed"), setting("Back to new", "none"), shelve];
    return [make("label", { class: "text" }, "Text ", text), make("div", { class: "line" }, ...buttons)];
  }

  ofShelf({ alarm }) {
    const unshelve = () => this.actions.unshelve(alarm["shelf-name"]);
    const button = make("button", { type: "button", id: "unshelve", onclick: unshelve }, "Unshelve …");
    return [make("div", { class: "line" }, button)];
  }

  hide() {
    this.key = null;
    this.pane.hidden = true;
    this.pane.replaceChildren();
  }
}
