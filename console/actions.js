// What the user can do: each action asks where it should, says what it did, and tells a refusal in words.

import * as restconf from "./restconf.js";
import { typeOf } from "./alarms.js";
import { ask, tell } from "./dialogs.js";
import { byId } from "./dom.js";
import { shelfOf } from "./shelve.js";

const DONE = { ack: "Acknowledged", closed: "Closed", none: "New again" };
const NAME_BYTES = 64;

const counted = (number) => `${number} ${number === 1 ? "alarm" : "alarms"}`;
const heldBy = (alarms, name) => alarms.filter((alarm) => alarm["shelf-name"] === name).length;

/** The longest front of a text that a shelf's name has room for. */
function asName(text) {
  let name = "";
  for (const character of text) {
    if (new TextEncoder().encode(name + character).length > NAME_BYTES) break;
    name += character;
  }
  return name;
}

export class Actions {
  constructor(follower) {
    this.follower = follower;
    this.isBusy = false;
  }

  /** Carries one action out at a time, and tells what it says or why it was refused. */
  async carryOut(action) {
    if (this.isBusy) return;
    this.isBusy = true;
    try {
      const done = await action();
      if (done) tell(done);
    } catch (fault) {
      if (!(fault instanceof restconf.Refusal)) throw fault;
      tell(fault.message, true);
    } finally {
      this.isBusy = false;
    }
    this.follower.now();
  }

  setState({ alarm }, state, words) {
    return this.carryOut(async () => {
      await restconf.setOperatorState(alarm, state, words);
      const input = byId("action-text");
      if (input) input.value = "";
      return `${DONE[state]}: ${alarm.resource}`;
    });
  }

  async shelve({ alarm }) {
    const name = await ask({
      title: "Shelve this alarm",
      lines: [
        `${alarm.resource}, ${typeOf(alarm)}`,
        "It leaves the list, and sends no notifications, until its shelf is taken away.",
      ],
      field: { label: "Name of the shelf ", value: asName(alarm.resource), most: NAME_BYTES },
      action: "Shelve",
    });
    if (name === null) return;
    await this.carryOut(async () => {
      await restconf.addShelf(shelfOf(alarm, name));
      return `Shelf ${name} holds ${counted(heldBy(await restconf.shelved(), name))} now.`;
    });
  }

  async unshelve(name) {
    const held = heldBy(this.follower.shelved.map(({ alarm }) => alarm), name);
    const isSure = await ask({
      title: `Unshelve: take shelf ${name} away`,
      lines: [`It holds ${counted(held)}. What it holds comes back to the list, unless another shelf takes it.`],
      action: "Unshelve",
    });
    if (!isSure) return;
    await this.carryOut(async () => {
      await restconf.dropShelf(name);
      return `Shelf ${name} is taken away.`;
    });
  }

  /** Purges what is cleared on a side, `list` or `shelf`, whose number of alarms is told before and after. */
  purge(side) {
    return this.carryOut(async () => {
      const before = await restconf.numberOf(side);
      const rows = side === "list" ? [...this.follower.rows.values()] : this.follower.shelved;
      const cleared = rows.filter(({ alarm }) => alarm["is-cleared"]).length;
      const isSure = await ask({
        title: "Purge what is cleared",
        lines: [
          `The ${side} has ${counted(before)}; ${cleared} of those that are shown are cleared.`,
          "Purging removes all that are cleared when it comes, with their histories.",
        ],
        action: "Purge",
      });
      if (!isSure) return null;
      const purged = await restconf.purgeCleared(side);
      return `${purged} purged: the ${side} had ${counted(before)}, and has ${await restconf.numberOf(side)} now.`;
    });
  }
}
