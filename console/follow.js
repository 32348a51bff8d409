// Follows the server: one small request every two seconds, for what the log has beyond what is known. Only where the place of
// the history has moved is more asked for.

import * as restconf from "./restconf.js";
import { keyOf, rowOf } from "./alarms.js";
import { learnTime } from "./time.js";

const PAUSE = 2000;
const KEPT = 4096;
const FEW = 16;
const BEYOND_ALL = 4294967295;

/** The note's alarm: that of a status change, or of an operator's action. */
export const subjectOf = (note) => note["ietf-alarms:alarm-notification"] ?? note["ietf-alarms:operator-action"];

export class Follower {
  /** `changed(notes)` hears of each change and its new notes, `looked(refusal)` of each look, with what went wrong. */
  constructor({ changed, looked }) {
    Object.assign(this, { changed, looked });
    this.forget();
    this.since = null;
    this.reached = null;
  }

  forget() {
    Object.assign(this, { place: null, sent: 0, oldest: 1, last: null, unread: null });
    Object.assign(this, { rows: new Map(), shelved: [], shelves: [], notes: [] });
  }

  /** Looks again and again. One that is wanted besides, as after an action, comes at once, or right behind the one under way. */
  start() {
    const turn = async () => {
      clearTimeout(this.timer);
      this.isLooking = true;
      do {
        this.isWanted = false;
        await this.look();
      } while (this.isWanted);
      this.isLooking = false;
      this.timer = setTimeout(turn, PAUSE);
    };
    this.now = () => {
      if (this.isLooking) this.isWanted = true;
      else turn();
    };
    turn();
  }

  async look() {
    try {
      const step = await restconf.notesFrom(this.place === null ? BEYOND_ALL : this.sent);
      learnTime(step.date);
      if (this.place === null) await this.begin(step);
      else if (!this.isSame(step)) this.beginAnew();
      else if (step.place > this.place) await this.goOn(step);
      if (this.unread) await this.readPast(this.unread);
      this.since = null;
      this.reached = Date.now();
      this.looked(null);
    } catch (fault) {
      const isRefusal = fault instanceof restconf.Refusal;
      if (!isRefusal) console.error(fault);
      this.since ??= Date.now();
      this.looked(isRefusal ? fault : new restconf.Refusal(-1, `The answer isn't understood (${fault.message}).`));
    }
  }

  /** Whether it is the history that was followed: it hasn't fallen, and has the last known note, which is asked for again. */
  isSame(step) {
    const known = this.last && JSON.stringify(this.last);
    return step.place >= this.place && step.sent >= this.sent && (!known || JSON.stringify(step.notes[0]) === known);
  }

  /** Another history stands there, or one that has gone on further than its log goes back. */
  beginAnew() {
    this.forget();
    this.isWanted = true;
  }

  async begin(step) {
    await this.readAll();
    Object.assign(this, { place: step.place, sent: step.sent, oldest: step.oldest });
    this.changed([]);
    this.unread = { oldest: step.oldest, newest: step.sent };
  }

  /** The notes that were there before, which the list doesn't wait for. */
  async readPast({ oldest, newest }) {
    const past = [];
    for (let from = oldest; from <= newest; ) {
      const { notes } = await restconf.notesFrom(from);
      if (notes.length === 0) break;
      past.push(...notes.filter((note) => note.number <= newest));
      from = notes.at(-1).number + 1;
    }
    Object.assign(this, { notes: past, last: past.at(-1), unread: null });
    this.changed([]);
  }

  /**
   * Goes on to a further place. Each entry of the history sends one note at most: where as many notes came as entries, what the
   * notes name is all that has changed. Else some entry was of another kind, or about the shelf, or sent nothing, and everything
   * is read.
   */
  async goOn(step) {
    const added = await this.added(step);
    const keys = new Map(added.map((note) => [keyOf(subjectOf(note)), subjectOf(note)]));
    const isTold = added.length === step.place - this.place && keys.size <= FEW;
    if (isTold) await this.readSome(keys);
    else await this.readAll();
    Object.assign(this, { place: step.place, sent: step.sent, oldest: step.oldest });
    this.notes = [...this.notes, ...added].slice(-KEPT);
    this.last = added.at(-1) ?? this.last;
    this.changed(added);
  }

  /** The notes from the last known one to the step's; a page has 256 of them. */
  async added(step) {
    const added = step.notes.filter(({ number }) => number > this.sent);
    while (added.length > 0 && added.at(-1).number < step.sent) {
      const { notes } = await restconf.notesFrom(added.at(-1).number + 1);
      if (notes.length === 0) break;
      added.push(...notes.filter((note) => note.number <= step.sent));
    }
    return added;
  }

  async readAll() {
    const [alarms, shelved, shelves] = await Promise.all([restconf.listed(), restconf.shelved(), restconf.shelves()]);
    this.rows = new Map(alarms.map((alarm) => [keyOf(alarm), rowOf(alarm)]));
    this.shelved = shelved.map(rowOf);
    this.shelves = shelves;
  }

  async readSome(keys) {
    try {
      const alarms = await Promise.all([...keys.values()].map(restconf.alarmOf));
      for (const alarm of alarms) this.rows.set(keyOf(alarm), rowOf(alarm));
    } catch (fault) {
      // One has left the list meanwhile, or has a key whose path the front doesn't let through.
      if (!(fault instanceof restconf.Refusal) || fault.isOutOfReach) throw fault;
      await this.readAll();
    }
  }
}
