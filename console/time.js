// Times: the server's clock, ages and stamps in words.

const UNITS = [["d", 86400], ["h", 3600], ["min", 60], ["s", 1]];
let ahead = 0;

/** Learns how far the server's clock is ahead of this machine's; a few seconds don't count. */
export function learnTime(date) {
  const difference = Date.parse(date) - Date.now();
  if (Number.isFinite(difference)) ahead = Math.abs(difference) > 5000 ? difference : 0;
}

export const now = () => Date.now() + ahead;

/** `3 h 5 min`: the two largest units of so many milliseconds. */
export function lasting(milliseconds) {
  let seconds = Math.max(0, Math.floor(milliseconds / 1000));
  const first = UNITS.findIndex(([, size]) => seconds >= size);
  if (first < 0) return "0 s";
  const parts = [];
  for (const [unit, size] of UNITS.slice(first, first + 2)) {
    const count = Math.floor(seconds / size);
    if (count > 0) parts.push(`${count} ${unit}`);
    seconds -= count * size;
  }
  return parts.join(" ");
}

const pad = (number) => String(number).padStart(2, "0");
const day = (time) => `${time.getFullYear()}-${pad(time.getMonth() + 1)}-${pad(time.getDate())}`;

/** The time of day here. */
export const clock = (stamp) => {
  const time = new Date(stamp);
  return `${pad(time.getHours())}:${pad(time.getMinutes())}:${pad(time.getSeconds())}`;
};

/** The time here, with its day unless that is today. */
export function moment(stamp) {
  const time = new Date(stamp);
  return day(time) === day(new Date(now())) ? clock(time) : `${day(time)} ${clock(time)}`;
}
