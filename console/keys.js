// Tabs and keys.

import { ask } from "./dialogs.js";
import { byId, make } from "./dom.js";

const TABS = ["list", "shelf", "log"];

const KEYS = [
  ["1 2 3", "list, shelf, log"],
  ["/", "to the text filter"],
  ["↑ ↓ Page Home End", "choose an alarm"],
  ["Enter", "open it"],
  ["a", "acknowledge it: a text, then Enter"],
  ["c", "close it: a text, then Enter"],
  ["s", "shelve it"],
  ["Escape", "close the detail"],
  ["?", "these keys"],
];

export function openTab(name) {
  for (const tab of TABS) {
    byId(`tab-${tab}`).setAttribute("aria-selected", tab === name);
    byId(`tab-${tab}`).tabIndex = tab === name ? 0 : -1;
    byId(`panel-${tab}`).hidden = tab !== name;
  }
}

/** Goes to the table that is shown. */
export function goToTable() {
  const tab = TABS.find((each) => !byId(`panel-${each}`).hidden);
  document.querySelector(`#${tab} .body`).focus();
}

export function showKeys() {
  const rows = KEYS.flatMap(([key, what]) => [make("dt", {}, make("kbd", {}, key)), make("dd", {}, what)]);
  return ask({ title: "Keys", lines: [make("dl", {}, ...rows)], action: null });
}

function pressTab(event) {
  const step = { ArrowRight: 1, ArrowLeft: -1 }[event.key];
  if (!step) return;
  const at = TABS.findIndex((tab) => byId(`tab-${tab}`) === event.target);
  const next = TABS[(at + step + TABS.length) % TABS.length];
  openTab(next);
  byId(`tab-${next}`).focus();
}

/** Goes to the text of an action, which Enter carries out as long as it isn't left. */
function prepare(state) {
  const input = byId("action-text");
  const { placeholder } = input;
  input.focus();
  input.placeholder = state === "ack" ? "Enter acknowledges" : "Enter closes the alarm";
  input.onblur = () => Object.assign(input, { placeholder, onkeydown: null, onblur: null });
  input.onkeydown = (event) => {
    if (event.key !== "Enter") return;
    event.preventDefault();
    document.querySelector(`#detail [data-state=${state}]`).click();
    goToTable();
  };
}

/** A key that acts on the alarm that is open; whether it did. */
function pressOnAlarm(key, closeDetail) {
  if (byId("detail").hidden) return false;
  const isListed = byId("shelve") !== null;
  if (key === "Escape") closeDetail();
  else if (key === "s" && isListed) byId("shelve").click();
  else if (key === "a" && isListed) prepare("ack");
  else if (key === "c" && isListed) prepare("closed");
  else return false;
  return true;
}

function press(event, closeDetail) {
  if (event.ctrlKey || event.metaKey || event.altKey || byId("dialog").open) return;
  if (event.target.matches("input[type=search], input:not([type]), select")) {
    if (event.key === "Escape") goToTable();
    return;
  }
  if (pressOnAlarm(event.key, closeDetail)) event.preventDefault();
  else if (event.key === "/") {
    event.preventDefault();
    openTab("list");
    byId("filter-text").focus();
  } else if (event.key === "?") showKeys();
  else if (["1", "2", "3"].includes(event.key)) {
    openTab(TABS[event.key - 1]);
    goToTable();
  }
}

export function listenToKeys(closeDetail) {
  openTab("list");
  for (const tab of TABS) byId(`tab-${tab}`).addEventListener("click", () => openTab(tab));
  document.querySelector("[role=tablist]").addEventListener("keydown", pressTab);
  document.addEventListener("keydown", (event) => press(event, closeDetail));
  byId("keys-button").addEventListener("click", showKeys);
}
