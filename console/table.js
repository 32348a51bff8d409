// A table of which only the rows in sight are elements, so that ten thousand rows are as quick as ten. One row is chosen at a
// time, by mouse or keys.

import { make, setText } from "./dom.js";

const narrow = matchMedia("(max-width: 900px)");
const height = () => (narrow.matches ? 54 : 30);
const BEYOND = 8;

/**
 * A table of columns `{ title, name, fill(cell, item), isFresh }`, where `isFresh` says that a cell is filled anew each second.
 * `keyOf` tells items apart, `looks` gives the class of an item's row, and `chosen` hears of the item that was chosen, and by what
 * it is to be opened (`click`, `key`) or that it isn't (null).
 */
export class Table {
  constructor(place, { label, columns, keyOf, chosen, looks }) {
    Object.assign(this, { columns, keyOf, chosen, looks, id: place.id });
    this.items = [];
    this.key = null;
    this.rows = new Map();
    this.space = make("div", { class: "space", role: "rowgroup" });
    const grid = { role: "grid", "aria-label": label, "aria-colcount": columns.length, tabindex: 0 };
    this.body = make("div", { class: "body", ...grid }, this.heading(), this.space);
    this.empty = make("p", { class: "empty", hidden: true });
    place.classList.add("table");
    place.append(this.body, this.empty);
    this.body.addEventListener("scroll", () => this.draw(), { passive: true });
    this.body.addEventListener("keydown", (event) => this.press(event));
    this.space.addEventListener("click", (event) => this.click(event));
    new ResizeObserver(() => this.draw()).observe(this.body);
    narrow.addEventListener("change", () => this.drawAnew());
  }

  heading() {
    const titles = this.columns.map(({ title, name }) => make("div", { role: "columnheader", class: name }, title));
    const row = make("div", { role: "row", class: "row", "aria-rowindex": 1 }, ...titles);
    return make("div", { role: "rowgroup", class: "heading" }, row);
  }

  /** Shows these items, in this order. Whoever has scrolled down keeps the row that stands at the top. */
  show(items, nothing) {
    const top = this.body.scrollTop > 0 && this.items[Math.floor(this.body.scrollTop / height())];
    const before = this.items.indexOf(top);
    this.items = items;
    this.body.setAttribute("aria-rowcount", items.length + 1);
    this.space.style.height = `${items.length * height()}px`;
    const behind = top ? items.findIndex((item) => this.keyOf(item) === this.keyOf(top)) : -1;
    if (behind >= 0 && behind !== before) this.body.scrollTop += (behind - before) * height();
    this.empty.hidden = items.length > 0;
    setText(this.empty, nothing);
    this.draw();
  }

  /** The places of the rows in sight, and some beyond. */
  sight() {
    const first = Math.floor(this.body.scrollTop / height());
    const count = Math.ceil(this.body.clientHeight / height());
    return [Math.max(0, first - BEYOND), Math.min(this.items.length, first + count + BEYOND)];
  }

  /** Draws every row anew, where their height is another. */
  drawAnew() {
    for (const row of this.rows.values()) row.remove();
    this.rows.clear();
    this.space.style.height = `${this.items.length * height()}px`;
    this.draw();
  }

  /** Draws the rows in sight. Elements of rows that have left it are taken for those that come. */
  draw() {
    const [first, end] = this.sight();
    const free = [...this.rows.keys()].filter((at) => at < first || at >= end);
    for (let at = first; at < end; at += 1) {
      if (!this.rows.has(at)) this.move(free.pop(), at);
      this.fill(this.rows.get(at), this.items[at]);
    }
    for (const at of free) {
      this.rows.get(at).remove();
      this.rows.delete(at);
    }
    const chosen = [...this.rows.values()].find((row) => this.keyOf(row.item) === this.key);
    if (chosen) this.body.setAttribute("aria-activedescendant", chosen.id);
    else this.body.removeAttribute("aria-activedescendant");
  }

  /** Moves an element from the place that it had, or a new one, to another place. */
  move(from, at) {
    const row = from === undefined ? this.blank() : this.rows.get(from);
    this.rows.delete(from);
    this.rows.set(at, row);
    row.id = `${this.id}-${at}`;
    row.setAttribute("aria-rowindex", at + 2);
    row.style.transform = `translateY(${at * height()}px)`;
  }

  fill(row, item) {
    const isChosen = this.keyOf(item) === this.key;
    const looks = `row ${this.looks(item)}${isChosen ? " chosen" : ""}`;
    if (row.className !== looks) {
      row.className = looks;
      row.setAttribute("aria-selected", isChosen);
    }
    if (row.item === item) return;
    row.item = item;
    this.columns.forEach((column, number) => column.fill(row.children[number], item));
  }

  blank() {
    const cells = this.columns.map(({ name }) => make("div", { role: "gridcell", class: name }));
    const row = make("div", { role: "row", "aria-selected": "false" }, ...cells);
    this.space.append(row);
    return row;
  }

  /** Fills anew what changes as time goes on. */
  tick() {
    for (const row of this.rows.values()) {
      this.columns.forEach(({ isFresh, fill }, number) => isFresh && fill(row.children[number], row.item));
    }
  }

  /** Chooses the item of a key, or none; nobody is told. */
  choose(key) {
    this.key = key;
    this.draw();
  }

  /** Scrolls so that the item at this place is in sight. */
  reveal(at) {
    const room = this.body.clientHeight - height();
    const top = this.body.scrollTop;
    if (at * height() < top) this.body.scrollTop = at * height();
    else if ((at + 1) * height() > top + room) this.body.scrollTop = (at + 1) * height() - room;
  }

  go(at, how) {
    if (this.items.length === 0) return;
    const item = this.items[Math.min(Math.max(at, 0), this.items.length - 1)];
    this.reveal(this.items.indexOf(item));
    this.choose(this.keyOf(item));
    this.chosen(item, how);
  }

  click(event) {
    const row = event.target.closest(".row");
    if (row?.item) this.go(this.items.indexOf(row.item), "click");
  }

  press(event) {
    if (event.ctrlKey || event.metaKey || event.altKey) return;
    const at = this.items.findIndex((item) => this.keyOf(item) === this.key);
    const page = Math.max(1, Math.floor(this.body.clientHeight / height()) - 2);
    const last = this.items.length - 1;
    const places = { ArrowDown: at + 1, ArrowUp: at - 1, PageDown: at + page, PageUp: at - page, Home: 0, End: last, Enter: at };
    if (!(event.key in places)) return;
    event.preventDefault();
    this.go(places[event.key], event.key === "Enter" ? "key" : null);
  }
}
