// The page: what follows the server, and what shows it.

import * as restconf from "./restconf.js";
import { Actions } from "./actions.js";
import { SEVERITIES, isRelated, summaryOf, typeOf, worstAndNewest } from "./alarms.js";
import { showChart } from "./chart.js";
import { Detail } from "./detail.js";
import { tell } from "./dialogs.js";
import { byId, make, setText, told } from "./dom.js";
import { Filters } from "./filters.js";
import { Follower } from "./follow.js";
import { goToTable, listenToKeys } from "./keys.js";
import { showSummary } from "./summary.js";
import { makeTables } from "./tables.js";
import { clock, moment } from "./time.js";

const follower = new Follower({ changed: showAll, looked: showState });
const actions = new Actions(follower);
const detail = new Detail(actions, closeDetail);
const filters = new Filters(filterList);
const tables = makeTables({ chosen, noted: openKey });
const opened = { key: null, isShelved: false };
let sorted = [];
let summary = summaryOf([]);
let types = null;

// --- what is shown

function showAll(notes) {
  sorted = [...follower.rows.values()].sort(worstAndNewest);
  summary = summaryOf(sorted);
  showList();
  showShelf();
  showLog();
  showCounts();
  drawChart();
  showDetail();
  announce(notes);
}

function showList() {
  const rows = sorted.filter(filters.passes);
  tables.list.show(rows, follower.rows.size ? "No alarm passes the filters." : "There is no alarm.");
  setText(byId("shown-list"), `${rows.length} of ${follower.rows.size} alarms`);
  showSummary(byId("summary"), summary, filters.alone, (severity) => filters.choose(severity));
}

function filterList() {
  tables.list.body.scrollTop = 0;
  showList();
}

function criteria({ description, resource, "alarm-type": types }) {
  const resources = resource ? `resources ${resource.join(", ")}` : "every resource";
  const named = types?.map((type) => `${type["alarm-type-id"]} ${type["alarm-type-qualifier-match"] ?? ""}`.trim());
  return `${description ? `${description}: ` : ""}${resources}; ${named ? `types ${named.join(", ")}` : "every type"}`;
}

function shelfItem(shelf) {
  const held = follower.shelved.filter(({ alarm }) => alarm["shelf-name"] === shelf.name).length;
  return make("li", {},
    make("strong", {}, told(shelf.name)),
    make("span", {}, `holds ${held}`),
    told(criteria(shelf)),
    make("button", { type: "button", onclick: () => actions.unshelve(shelf.name) }, "Unshelve …"));
}

function showShelf() {
  tables.shelf.show([...follower.shelved].sort(worstAndNewest), "No alarm is shelved.");
  const items = follower.shelves.map(shelfItem);
  if (items.length === 0) items.push(make("li", {}, "There is no shelf. An alarm of the list is shelved from its detail."));
  byId("shelves").replaceChildren(...items);
}

function showLog() {
  tables.log.show([...follower.notes].reverse(), "No notification was sent yet.");
  setText(byId("shown-log"), `${follower.notes.length} of ${follower.sent} notifications that were sent are kept`);
}

function drawChart() {
  const kept = follower.oldest > 1 && follower.notes[0] ? Date.parse(follower.notes[0]["event-time"]) : null;
  showChart(byId("chart"), follower.notes, Number(byId("chart-hours").value), kept);
}

function showCounts() {
  setText(byId("count-list"), String(follower.rows.size));
  setText(byId("count-shelf"), String(follower.shelved.length));
  setText(byId("count-log"), String(follower.notes.length));
  showTitle("");
}

function showTitle(old) {
  const { standing } = summary.get("critical");
  document.title = old || standing ? `(${old}${standing} critical) Alarms` : "Alarms";
}

/** Says the worst of what came, for those who listen. */
function announce(notes) {
  const changes = notes.map((note) => note["ietf-alarms:alarm-notification"]).filter(Boolean);
  if (changes.length === 0) return;
  const order = (change) => [...SEVERITIES, "cleared"].indexOf(change["perceived-severity"]);
  const worst = changes.reduce((best, change) => (order(change) <= order(best) ? change : best));
  const count = changes.length > 1 ? `${changes.length} changes, the worst: ` : "";
  setText(byId("live"), `${count}${worst["perceived-severity"]}, ${worst.resource}, ${worst["alarm-text"]}`);
}

/** Says whether what is shown is of now, or since when it is old. */
function showState(refusal) {
  const stale = byId("stale");
  stale.hidden = !refusal;
  if (!refusal) {
    setText(byId("state"), `Up to date at ${clock(follower.reached)}, after ${follower.place} changes`);
    showTitle("");
    return;
  }
  const shown = follower.reached ? `What is shown is from ${moment(follower.reached)}.` : "Nothing is shown yet.";
  const why = refusal.isOutOfReach ? "The server can't be reached" : `${refusal.message} So it is`;
  setText(stale, `${why} since ${moment(follower.since)}. ${shown}`);
  setText(byId("state"), "Old");
  showTitle("old, ");
}

// --- the detail

const relatedTo = ({ key, alarm }) =>
  sorted.filter((row) => row.key !== key && isRelated(row.alarm.resource, alarm.resource));

function showDetail() {
  if (!opened.key) return;
  const row = opened.isShelved ? follower.shelved.find(({ key }) => key === opened.key) : follower.rows.get(opened.key);
  const type = row && types?.get(typeOf(row.alarm));
  if (row) detail.show(row, opened.isShelved, { related: relatedTo(row), type, open: openKey });
  else closeDetail();
}

async function readTypes() {
  try {
    types = new Map((await restconf.inventory()).map((row) => [typeOf(row), row]));
    showDetail();
  } catch {
    types = null;
  }
}

/** Opens an alarm. It is gone to where that was asked by a key, or where the detail covers the page. */
function open(key, isShelved, how) {
  Object.assign(opened, { key, isShelved });
  (isShelved ? tables.shelf : tables.list).choose(key);
  showDetail();
  if (how === "key" || getComputedStyle(detail.pane).position === "fixed") detail.pane.focus();
  if (!types) readTypes();
}

/** A row was chosen: it is opened where that was asked, or where another one is open. */
function chosen(key, isShelved, how) {
  if (how || opened.key) open(key, isShelved, how);
}

/** Opens the alarm of a key, wherever it stands. */
function openKey(key, how) {
  const isShelved = follower.shelved.some((row) => row.key === key);
  if (isShelved || follower.rows.has(key)) open(key, isShelved, how);
  else tell("This alarm is neither on the list nor on the shelf any more.");
}

function closeDetail() {
  const isWithin = detail.pane.contains(document.activeElement);
  opened.key = null;
  detail.hide();
  if (isWithin) goToTable();
}

listenToKeys(closeDetail);
byId("purge-list").addEventListener("click", () => actions.purge("list"));
byId("purge-shelf").addEventListener("click", () => actions.purge("shelf"));
byId("chart-hours").addEventListener("change", drawChart);
new ResizeObserver(drawChart).observe(byId("chart"));
setInterval(() => [tables.list, tables.shelf].forEach((table) => table.tick()), 1000);
setInterval(drawChart, 60000);
document.addEventListener("visibilitychange", () => document.hidden || follower.now());
follower.start();
