// The shelf that takes one alarm: its resource as a resource match, its type, its qualifier as a pattern (docs/PROFILE.md,
// "Resource matches").

const NAME = "[A-Za-z_][A-Za-z0-9_.-]*";
const STEP = `/(?:${NAME}:)?${NAME}(?:\\[(?:\\.|(?:${NAME}:)?${NAME})=(?:'[^']*'|"[^"]*")\\])*`;
const PATH = new RegExp(`^(?=/${NAME}:)(?:${STEP})+$`);
const OBJECT_IDENTIFIER = /^(?:[01]\.(?:[0-9]|[123][0-9])|2\.(?:0|[1-9][0-9]*))(?:\.(?:0|[1-9][0-9]*))*$/;
const NODES = 250;
const BYTES = 250;

const ESCAPES = { "\n": "\\n", "\r": "\\r", "\t": "\\t" };

/** One character as a pattern: itself, an escape, or `.` where patterns have no way to say it. */
function piece(character) {
  if (character in ESCAPES) return ESCAPES[character];
  if (/[\\|.?*+(){}[\]^-]/.test(character)) return `\\${character}`;
  return /[ -~]/.test(character) ? character : ".";
}

/** A pattern that takes a text. What is too long for a pattern is cut, and any end taken. */
function pattern(text) {
  const pieces = [...text].map(piece);
  let length = 0;
  const room = pieces.findIndex((each, number) => (length += each.length) > BYTES || number >= NODES);
  return room < 0 ? pieces.join("") : `${pieces.slice(0, room).join("")}.*`;
}

function resourceMatch(resource) {
  if (PATH.test(resource) || OBJECT_IDENTIFIER.test(resource)) return resource;
  return resource.startsWith("/") ? `[/]${pattern(resource.slice(1))}` : pattern(resource);
}

export function shelfOf(alarm, name) {
  const qualifier = pattern(alarm["alarm-type-qualifier"]);
  const type = { "alarm-type-id": alarm["alarm-type-id"], "alarm-type-qualifier-match": qualifier };
  return { name, resource: [resourceMatch(alarm.resource)], "alarm-type": [type] };
}
