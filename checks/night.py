"""Writes the journal of a night, as PROFILE says ("The journal's file", "Entries"): what the console's picture shows."""
import struct


def text(value):
    data = value.encode()
    return struct.pack(">H", len(data)) + data


def many(items):
    return struct.pack(">H", len(items)) + b"".join(items)


TYPES = [
    ("net:link-down", "The port has no carrier", 2),
    ("net:low-light", "The light that is received is too weak", 2),
    ("hw:fan", "A fan turns too slowly", 5),
    ("hw:temperature", "It is too warm", 6),
    ("hw:power", "A power supply has no input", 5),
    ("sys:load", "The processor is busy", 4),
    ("net:bgp-peer", "A neighbour doesn't answer", 2),
]
SAID = {
    "net:link-down": "no carrier", "net:low-light": "-27.4 dBm, limit -24 dBm", "hw:fan": "fan 2 at 1,180 rpm", "hw:temperature": "inlet 41 °C",
    "hw:power": "no input at supply B", "sys:load": "load 94 % for 10 minutes", "net:bgp-peer": "hold timer expired",
}


def inventory_event():
    identities = [text(name) + text("ietf-alarms:alarm-type-id") for name, _, _ in TYPES]
    rows = [text(name) + text("") + many([]) + b"\1\0" + text(said) + bytes([event]) for name, said, event in TYPES]
    return b"\x09" + many(identities) + many(rows)


def key_of(alarm):
    return text(alarm[0]) + text(alarm[1]) + text("")


def report_event(alarm, status, said):
    return b"\1" + key_of(alarm) + bytes([status]) + text(said)


def action_event(alarm, state, operator, said):
    return b"\2" + key_of(alarm) + bytes([state]) + text(operator) + b"\1" + text(said)


class Chance:
    """Numbers that are the same each time."""

    def __init__(self, seed):
        self.seed = seed

    def below(self, limit):
        self.seed = (self.seed * 1103515245 + 12345) % 2147483648
        return self.seed // 65536 % limit


RESOURCES = {"net": "core{0}/slot{1}/port{2}", "hw": "rack{0}/unit{1}", "sys": "core{0}/cpu{1}"}


def night_events(now):
    """Times and events of a night: alarms that are raised, become worse, are seen to, and end."""
    chance, hour, seen, events = Chance(7), 3600_000, set(), []
    while len(seen) < 64:
        kind = TYPES[chance.below(len(TYPES))][0]
        resource = RESOURCES[kind.split(":")[0]].format(1 + chance.below(3), 1 + chance.below(6), 1 + chance.below(24))
        alarm = (resource, kind)
        if alarm in seen:
            continue
        seen.add(alarm)
        start = now - 6 * hour + chance.below(5000) * 6 * hour // 5200
        status = 1 + min(4, (1, 2, 2, 3, 3, 3, 4, 4, 1, 0)[chance.below(10)])
        events.append((start, report_event(alarm, status, SAID[kind])))
        later = lambda: start + chance.below(1000) * (now - start) // 1000
        if chance.below(5) == 0:
            events.append((later(), report_event(alarm, 5 if chance.below(3) == 0 else 4, SAID[kind] + ", and worse")))
        if chance.below(3) == 0:
            events.append((later(), action_event(alarm, 1, ("ann", "bob")[chance.below(2)], "on my way")))
        if chance.below(3) == 0:
            events.append((now - chance.below(1000) * (now - start) // 3000, report_event(alarm, 0, "good again")))
    return [(now - 7 * hour, inventory_event())] + sorted(events + story_of(now))


TOLD = ("core2/slot4/port9", "net:low-light")


def story_of(now):
    """One alarm with a longer history, which the picture shows, and another one at a resource below."""
    minute = 60_000
    limit = ", limit -24 dBm"
    steps = [(200, 3, "-25.1 dBm" + limit), (171, 0, "-22.9 dBm"), (140, 2, "-24.6 dBm" + limit), (96, 4, "-26.8 dBm" + limit)]
    steps.append((38, 5, "-31.9 dBm" + limit))
    acts = [(189, 1, "ann", "asked the site to look at it"), (120, 0, "bob", "it comes and goes"), (31, 1, "ann", "a crew is on its way")]
    below = report_event((TOLD[0] + "/lane1", "net:link-down"), 4, "no carrier")
    return [(now - at * minute, report_event(TOLD, *rest)) for at, *rest in steps] + [
        (now - at * minute, action_event(TOLD, *rest)) for at, *rest in acts] + [(now - 36 * minute, below)]


def journal_of(path, capacity, events):
    """Writes a journal of these events, a millisecond apart where their times don't tell them apart."""
    data, last = b"\1ALJ1" + struct.pack(">Q", capacity), 0
    for moment, event in events:
        last = max(last + 1, moment)
        frame = struct.pack(">QH", last, 1) + event
        data += b"\1" + struct.pack(">I", len(frame)) + frame
    with open(path, "wb") as journal:
        journal.write(data + b"\0")
