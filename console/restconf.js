// The server's RESTCONF surface, as docs/PROFILE.md describes it.

const ALARMS = "data/ietf-alarms:alarms";
const JSON_TYPE = "application/yang-data+json";
const ROOT = `${location.origin}/restconf/`;

const WORDS = {
  "no such alarm": "This alarm isn't there any more.",
  "no such shelf": "This shelf isn't there any more.",
  "shelf exists": "There is a shelf of this name already; choose another name.",
  "shelves full": "There are 64 shelves already, which is the most.",
  "bad value": "The server doesn't take one of the values: it is too long, or has another form.",
  "missing operator": "The front doesn't tell the server who you are.",
  "bad operator": "The server doesn't take your name as an operator's.",
  "journal full": "The server's journal is full, so nothing can be changed.",
  "disk fault": "The server's disk failed, so the change wasn't made. Look at the list again before you repeat it.",
  "clock at its end": "The server's clock is at its end, so nothing can be changed.",
};

const STATUSES = {
  401: "You aren't logged in.",
  403: "The front refused this.",
  413: "This is too long for the server.",
  502: "The server behind the front can't be reached.",
  503: "The server has no memory for this now. Nothing has changed.",
  504: "The server behind the front doesn't answer.",
};

/** A request that wasn't answered by a success: its status, 0 where nothing was answered, and what to tell. */
export class Refusal extends Error {
  constructor(status, message) {
    super(message);
    this.status = status;
  }
  /** Whether server or front is out of reach, rather than of another opinion. */
  get isOutOfReach() {
    return [0, 502, 503, 504].includes(this.status);
  }
}

function inWords(status, body) {
  let message = "";
  try {
    message = JSON.parse(body)["ietf-restconf:errors"].error[0]["error-message"];
  } catch {
    // It is an answer of the front.
  }
  const words = WORDS[message] ?? STATUSES[status] ?? "";
  return `${words} (${message ? `${message}, ` : ""}status ${status})`.trim();
}

const LOOK = "Look at the list whether the change was made.";

async function sent(method, path, body, seconds) {
  const headers = { Accept: JSON_TYPE };
  if (body !== undefined) headers["Content-Type"] = JSON_TYPE;
  try {
    return await fetch(ROOT + path, {
      method, headers, cache: "no-store", redirect: "error",
      body: body === undefined ? undefined : JSON.stringify(body),
      signal: AbortSignal.timeout(seconds * 1000),
    });
  } catch (fault) {
    const isLate = fault.name === "TimeoutError";
    const why = isLate ? `Nothing was answered within ${seconds} seconds.` : "The server can't be reached.";
    throw new Refusal(0, method === "GET" ? why : `${why} ${LOOK}`);
  }
}

function read(text) {
  try {
    return JSON.parse(text);
  } catch {
    throw new Refusal(-1, "The answer isn't JSON, so it isn't the server's.");
  }
}

async function asked(method, path, body, seconds = 60) {
  const response = await sent(method, path, body, seconds);
  const text = await response.text().catch(() => {
    throw new Refusal(0, "The answer broke off.");
  });
  const { headers, ok, status } = response;
  const isLost = method !== "GET" && [502, 504].includes(status);
  if (!ok) throw new Refusal(status, inWords(status, text) + (isLost ? ` ${LOOK}` : ""));
  return { place: Number(headers.get("Alarm-Place")), date: headers.get("Date"), body: text ? read(text) : null };
}

const keyed = (alarm) =>
  [alarm.resource, alarm["alarm-type-id"], alarm["alarm-type-qualifier"]].map(encodeURIComponent).join(",");

async function only(path, member) {
  return (await asked("GET", path)).body[`ietf-alarms:${member}`];
}

/** The notes from a number on, at most 256, with the place of the history and the server's time. It is the small request. */
export async function notesFrom(number) {
  const { place, date, body } = await asked("GET", `data/alarmd:notification-log?from=${number}`, undefined, 10);
  const log = body["alarmd:notification-log"];
  return { place, date, sent: log.sent, oldest: log.oldest, notes: log.note ?? [] };
}

export const listed = async () => (await only(`${ALARMS}/alarm-list`, "alarm-list")).alarm ?? [];
export const shelved = async () => (await only(`${ALARMS}/shelved-alarms`, "shelved-alarms"))["shelved-alarm"] ?? [];
export const shelves = async () => (await only(`${ALARMS}/control/alarm-shelving`, "alarm-shelving")).shelf ?? [];
export const inventory = async () => (await only(`${ALARMS}/alarm-inventory`, "alarm-inventory"))["alarm-type"] ?? [];

/** One alarm of the list. */
export const alarmOf = async (key) => (await only(`${ALARMS}/alarm-list/alarm=${keyed(key)}`, "alarm"))[0];

export function setOperatorState(alarm, state, text) {
  const input = text ? { state, text } : { state };
  return asked("POST", `${ALARMS}/alarm-list/alarm=${keyed(alarm)}/set-operator-state`, { "ietf-alarms:input": input });
}

/** Makes a shelf; one of the same name isn't replaced. */
export const addShelf = (shelf) => asked("POST", `${ALARMS}/control/alarm-shelving`, { "ietf-alarms:shelf": [shelf] });

export const dropShelf = (name) => asked("DELETE", `${ALARMS}/control/alarm-shelving/shelf=${encodeURIComponent(name)}`);

const SIDES = {
  list: { count: "alarm-list/number-of-alarms", number: "number-of-alarms", purge: "alarm-list/purge-alarms" },
  shelf: {
    count: "shelved-alarms/number-of-shelved-alarms",
    number: "number-of-shelved-alarms",
    purge: "shelved-alarms/purge-shelved-alarms",
  },
};

/** How many alarms a side has, `list` or `shelf`. */
export const numberOf = (side) => only(`${ALARMS}/${SIDES[side].count}`, SIDES[side].number);

/** Purges what is cleared on a side, and tells how many alarms that were. */
export async function purgeCleared(side) {
  const input = { "ietf-alarms:input": { "alarm-clearance-status": "cleared" } };
  const { body } = await asked("POST", `${ALARMS}/${SIDES[side].purge}`, input);
  return body["ietf-alarms:output"]["purged-alarms"];
}
