"""The body of checks/console, which says what it does."""
import json
import os
import shutil
import subprocess
import sys
import time
from concurrent.futures import ThreadPoolExecutor

from selenium.webdriver.common.keys import Keys

from alarms import COUNT, INSTALL, checked, made, report, sent
from night import TOLD, journal_of, night_events
from page import Front, Page, Served, until, wants

MARKUP = '<script>document.title="caught"</script><img src=x onerror=alert(1)> "\'`&amp; '
RIGHT_TO_LEFT = "\u202eאזעקה\u202e שלום "
SEVERITIES = ["critical", "major", "minor", "warning", "indeterminate"]


# --- what RESTCONF says, in the page's words


def severity_words(alarm):
    return ("cleared, was " if alarm["is-cleared"] else "") + alarm["perceived-severity"]


def operator_words(alarm):
    last = (alarm.get("operator-state-change") or [{"state": "none"}])[0]
    words = {"ack": "acknowledged", "closed": "closed", "un-shelved": "unshelved", "shelved": "shelved"}
    return f"{words[last['state']]} by {last['operator']}" if last["state"] in words else ""


def state_of(alarm):
    last = (alarm.get("operator-state-change") or [{"state": "none"}])[0]["state"]
    return last if last in ("ack", "closed") else "none"


def in_order(alarms):
    """Standing before cleared, the worst first, then the newest."""
    newest = sorted(alarms, key=lambda alarm: alarm["last-raised"], reverse=True)
    return sorted(newest, key=lambda alarm: (alarm["is-cleared"], SEVERITIES.index(alarm["perceived-severity"])))


def reported(resource, kind, severity, said):
    body = {"alarmd:input": {"resource": resource, "alarm-type-id": kind, "perceived-severity": severity, "alarm-text": said}}
    return sent(b"POST", b"/restconf/operations/alarmd:report", json.dumps(body).encode())


def listed(front):
    return front.get("ietf-alarms:alarms/alarm-list")["ietf-alarms:alarm-list"].get("alarm", [])


def row_of(alarm):
    kind = f"{alarm['alarm-type-id']} {alarm['alarm-type-qualifier']}".strip()
    return [severity_words(alarm), alarm["resource"], kind, alarm["alarm-text"], operator_words(alarm)]


def rows_of(page, table="list"):
    """All rows of a table, in their order, which is scrolled through for that; the age is left out."""
    script = """
      const body = document.querySelector(`#${arguments[0]} .body`), rows = new Map(), end = arguments[1];
      const top = body.scrollTop;
      const step = () => {
        for (const row of body.querySelectorAll(".space .row")) rows.set(row.ariaRowIndex, [...row.children].map((cell) => cell.textContent));
        if (body.scrollTop + body.clientHeight >= body.scrollHeight - 1) {
          body.scrollTop = top;
          end([...rows].sort(([a], [b]) => a - b).map(([, cells]) => cells));
        } else { body.scrollTop += body.clientHeight / 2; requestAnimationFrame(() => requestAnimationFrame(step)); }
      };
      body.scrollTop = 0;
      requestAnimationFrame(() => requestAnimationFrame(step));"""
    return page.driver.execute_async_script(script, table)


def is_list(page, alarms):
    """Whether the page's list is these alarms."""
    shown = [[*row[:4], row[5]] for row in rows_of(page)]
    return shown == [row_of(alarm) for alarm in in_order(alarms)]


# --- the checks


def try_summary(front, page):
    rows = front.get("ietf-alarms:alarms/summary")["ietf-alarms:summary"]["alarm-summary"]
    want = [[row["severity"], str(row["not-cleared"]), f"{row['cleared']} cleared"] for row in rows]
    shown = page.js("return [...document.querySelectorAll('.tile')].map((tile) => [...tile.children].map((part) => part.textContent))")
    wants([[name, count, cleared] for name, count, _, cleared in shown] == want, "the summary is another", f"{shown}\n{want}")
    parts = page.js("return [...document.querySelectorAll('.bar .part')].map((part) => part.textContent)")
    wants(parts == [row[1] for row in want if row[1] != "0"], "the bar is another", parts)


def try_log(front, page):
    log = front.get("alarmd:notification-log")["alarmd:notification-log"]
    kinds = [note["ietf-alarms:alarm-notification"]["perceived-severity"] for note in log["note"] if "ietf-alarms:alarm-notification" in note]
    page.js("const hours = document.getElementById('chart-hours'); hours.value = '24'; hours.dispatchEvent(new Event('change'))")
    label = page.at("#chart svg").get_attribute("aria-label")
    for kind in (*SEVERITIES, "cleared"):
        wants(f"{kinds.count(kind)} {kind}" in label, f"the chart tells another number of {kind}", f"{label}\n{kinds.count(kind)}")
    wants(page.js("return document.querySelectorAll('#chart rect').length") > 10, "the chart draws no columns")
    page.click("#tab-log")
    numbers = [int(row[0]) for row in rows_of(page, "log")]
    wants(numbers == list(range(log["sent"], 0, -1)), "the log has other notes", numbers)
    page.click("#tab-list")


def try_source(top):
    """The page's files read no markup, keep nothing, and load nothing from elsewhere."""
    words = ["innerHTML", "outerHTML", "insertAdjacentHTML", "document.write", "eval(", "Function(", "Storage", "cookie", "indexedDB"]
    words += ["style=", "onclick=", "http:", "https:"]
    folder = os.path.join(top, "console")
    for name in sorted(os.listdir(folder)):
        with open(os.path.join(folder, name)) as source:
            content = source.read().replace("http://www.w3.org/2000/svg", "")
        found = [word for word in words if word in content]
        wants(name.endswith(".md") or not found, f"{name} has {found}")


FILTERS = [
    ("severity", ".tile[data-severity=major]", lambda alarm: alarm["perceived-severity"] == "major"),
    ("cleared", "[name=cleared][value=cleared]", lambda alarm: alarm["is-cleared"]),
    ("standing", "[name=cleared][value=standing]", lambda alarm: not alarm["is-cleared"]),
    ("operator", "[name=operator][value=ack]", lambda alarm: state_of(alarm) == "ack"),
    ("new", "[name=operator][value=none]", lambda alarm: state_of(alarm) == "none"),
]


def try_filters(front, page):
    alarms = listed(front)
    for name, selector, lets in FILTERS:
        page.click(selector)
        wants(is_list(page, filter(lets, alarms)), f"the filter {name} lets others through")
        page.click("[type=reset]")
        time.sleep(0.05)
    page.press("/")
    page.press("rack low")
    wants(is_list(page, []), "a text lets alarms through that it shouldn't")
    page.js("document.getElementById('filter-text').select()")
    page.press("core1 LIGHT")
    lit = [alarm for alarm in alarms if "core1" in alarm["resource"] and "light" in alarm["alarm-type-id"]]
    wants(lit and is_list(page, lit), "the filter by text lets others through")
    page.click("[type=reset]")
    until(lambda: is_list(page, alarms), "all are shown again")


OPEN = """
  const row = [...document.querySelectorAll("#list .space .row")].find((row) => row.children[1].textContent === arguments[0]);
  row?.click();
  return !!row;"""
TYPE = """
  document.getElementById("filter-text").value = arguments[0];
  document.getElementById("filters").dispatchEvent(new Event("input"));"""


def open_row(page, resource):
    """Opens the alarm of a resource by a click on its row, which stands high on the list."""
    page.js("document.querySelector('#list .body').scrollTop = 0")
    until(lambda: page.js(OPEN, resource), f"a row of {resource} is in sight")
    until(lambda: page.js("return document.querySelector('#detail h2 bdi')?.textContent") == resource, "the detail is open")


def try_detail(front, page):
    """The alarm with the longest histories: its lists, its drawing, and others at its resource."""
    alarms = listed(front)
    alarm = max(alarms, key=lambda each: (len(each["status-change"]) + 4 * len(each.get("operator-state-change", []))))
    page.js(TYPE, alarm["resource"])
    open_row(page, alarm["resource"])
    statuses, actions = alarm["status-change"], alarm.get("operator-state-change", [])
    counts = page.js("return [...document.querySelectorAll('#detail ol')].map((list) => list.children.length)")
    wants(counts == [len(statuses), max(1, len(actions))], "the detail has other histories", counts)
    drawn = page.js("return ['rect', '.mark'].map((part) => document.querySelectorAll(`#detail .timeline ${part}`).length)")
    wants(drawn == [len(statuses), len(actions)], "the time line draws other histories", drawn)
    page.press(Keys.ESCAPE)
    wants(not page.at("#detail").is_displayed(), "Escape leaves the detail open")
    page.click("[type=reset]")
    shared = [each["resource"] for each in alarms if sum(other["resource"] == each["resource"] for other in alarms) > 1]
    page.js(TYPE, shared[0])
    open_row(page, shared[0])
    related = page.js("return document.querySelectorAll('#detail ul .link').length")
    wants(related >= shared.count(shared[0]) - 1 > 0, "alarms at the same resource aren't shown", related)
    page.click("[type=reset]")
    page.press(Keys.ESCAPE)


def asked_since(page):
    """The addresses that the page has asked since it was last looked."""
    return page.js("const all = performance.getEntriesByType('resource').map(({ name }) => name); performance.clearResourceTimings(); return all")


def last_place(served):
    client = served.client()
    place = client.ask(COUNT).place
    client.connection.close()
    return place


def try_following(front, served, page):
    """What is asked while nothing changes, and when one alarm does; the log grows, and those who listen hear of it."""
    asked_since(page)
    time.sleep(5)
    idle = asked_since(page)
    wants(1 <= len(idle) <= 4 and all("notification-log?from=" in line for line in idle), "other requests while nothing changes", idle)
    alarm = ("core9/slot1/port1", "net:link-down")
    served.tell(reported(*alarm, "critical", "no carrier at all"))
    until(lambda: "core9/slot1/port1" in page.text("list"), "a new alarm is on the page", 5)
    asked = asked_since(page)
    alone = [line for line in asked if line.endswith("/alarm=core9%2Fslot1%2Fport1,net%3Alink-down,")]
    whole = [line for line in asked if line.endswith("/alarm-list")]
    wants(len(alone) == 1 and not whole, "another request than for the one alarm", asked)
    until(lambda: "critical, core9/slot1/port1, no carrier at all" in page.text("live"), "the alarm is said")
    wants(is_list(page, listed(front)), "the list is another behind one change")
    rule = b"/restconf/data/ietf-alarms:alarms/control/notify-status-changes"
    served.tell(sent(b"PUT", rule, b'{"ietf-alarms:notify-status-changes":"raise-and-clear"}'),
                reported(*alarm, "major", "less than it seemed"), reported(*alarm, "critical", "no carrier on any lane"))
    until(lambda: f"after {last_place(served)} changes" in page.text("state"), "changes that send nothing are seen", 5)
    wants(is_list(page, listed(front)), "the list is another behind changes that send nothing")
    served.tell(sent(b"PUT", rule, b'{"ietf-alarms:notify-status-changes":"all-state-changes"}'))


def alarm_at(front, resource):
    return next(alarm for alarm in listed(front) if alarm["resource"] == resource)


def last_action(front, resource):
    return (alarm_at(front, resource).get("operator-state-change") or [None])[0]


def try_actions(front, page):
    """Acknowledged by the mouse, closed by the keys, each with a text; the operator is who logged in."""
    resource = "core9/slot1/port1"
    open_row(page, resource)
    page.at("#action-text").send_keys("gone <b>there</b>")
    page.click("#detail [data-state=ack]")
    action = until(lambda: last_action(front, resource), "the alarm is acknowledged")
    wants([action[name] for name in ("state", "operator", "text")] == ["ack", "ann", "gone <b>there</b>"], "another action", action)
    until(lambda: "gone <b>there</b>" in page.text("detail"), "the action is shown")
    page.click("#list .body")
    page.press(Keys.HOME, Keys.ENTER)
    until(lambda: page.at("#detail h2").text == resource, "Home and Enter open the worst and newest")
    page.press("c")
    page.press("mended", Keys.ENTER)
    until(lambda: last_action(front, resource)["state"] == "closed", "the alarm is closed")
    wants(last_action(front, resource)["text"] == "mended", "closed with another text")
    until(lambda: "closed by ann" in page.text("list"), "the list tells the state")


def answer_dialog(page, text=None):
    until(lambda: page.js("return document.getElementById('dialog').open"), "the dialog is open")
    if text is not None:
        page.js("document.getElementById('dialog-field').value = arguments[0]", text)
    page.click("#dialog button.main")


def shelved(front):
    return front.get("ietf-alarms:alarms/shelved-alarms")["ietf-alarms:shelved-alarms"].get("shelved-alarm", [])


def try_shelf(front, page):
    """One alarm is shelved, and none beside it; a name that is in use is refused; the shelf and its alarm are shown, and taken away again."""
    before = len(listed(front))
    page.click("#shelve")
    answer_dialog(page, "lab, no 1")
    until(lambda: len(shelved(front)) == 1, "the alarm is shelved")
    wants([alarm["shelf-name"] for alarm in shelved(front)] == ["lab, no 1"] and len(listed(front)) == before - 1, "other alarms are shelved")
    until(lambda: "holds 1 alarm now" in page.text("notice"), "what was shelved is told")
    until(lambda: page.text("count-shelf") == "1", "the page's shelf has it")
    until(lambda: not page.at("#detail").is_displayed(), "the detail of an alarm that left the list is closed")
    page.click("#list .body")
    page.press(Keys.HOME, Keys.ENTER, "s")
    answer_dialog(page, "lab, no 1")
    until(lambda: "There is a shelf of this name already" in page.text("notice"), "the refusal is told in words")
    wants(len(shelved(front)) == 1, "a refused shelf takes something")
    page.press(Keys.ESCAPE)
    page.click("#tab-shelf")
    wants(rows_of(page, "shelf")[0][1] == "core9/slot1/port1" and "holds 1" in page.text("shelves"), "the shelf shows something else")
    page.click("#shelf .space .row")
    until(lambda: page.at("#detail h2").text == "core9/slot1/port1", "a shelved alarm is opened")
    page.click("#unshelve")
    answer_dialog(page)
    until(lambda: not shelved(front), "the shelf is taken away")
    until(lambda: page.text("count-shelf") == "0" and page.text("count-list") == str(before), "the page has it on the list again")
    page.click("#tab-list")


MATCHED = [
    "/ex:rack/slot[name='3']/port", "1.3.6.1.4", "/no path", "a\\b", "[x]-^y", "(a|b)*+?.{2}", "Größe 7", "tab\tand\nline", "x" * 300,
    "<b>&'\"", "plain",
]


def try_matches(front, served, page):
    """The shelf that the page makes of an alarm takes that one alone, whatever its resource is."""
    path = b"/restconf/data/ietf-alarms:alarms/control/alarm-shelving"
    served.tell(*(reported(resource, "hw:fan", "warning", "turns slowly") for resource in MATCHED))
    script = "const [alarm, end] = arguments; import('/shelve.js').then(({ shelfOf }) => end(shelfOf(alarm, 'one')))"
    for resource in MATCHED:
        shelf = page.driver.execute_async_script(script, alarm_at(front, resource))
        served.tell(sent(b"POST", path, json.dumps({"ietf-alarms:shelf": [shelf]}).encode()))
        taken = [alarm["resource"] for alarm in shelved(front)]
        wants(taken == [resource], "a shelf takes other alarms than its own", f"{shelf}\n{taken}")
        served.tell(sent(b"DELETE", path + b"/shelf=one"))


def try_purge(front, page):
    alarms = listed(front)
    cleared = sum(alarm["is-cleared"] for alarm in alarms)
    page.click("#purge-list")
    until(lambda: f"{len(alarms)} alarms; {cleared} of those" in page.text("dialog"), "the counts are asked first")
    page.click("#dialog button[type=button]")
    wants(len(listed(front)) == len(alarms), "something is purged though the user went back")
    page.click("#purge-list")
    answer_dialog(page)
    told = f"{cleared} purged: the list had {len(alarms)} alarms, and has {len(alarms) - cleared} now"
    until(lambda: told in page.text("notice"), "what was purged is told")
    until(lambda: is_list(page, listed(front)), "the list is that of the server again")
    wants(len(listed(front)) == len(alarms) - cleared > 0, "another number is left")


HARM = [
    ("<b>x</b>", MARKUP),
    ("'\"><svg/onload=alert(2)>", "&lt;i&gt; </td><style>*{display:none}</style>"),
    ("core8/" + RIGHT_TO_LEFT, RIGHT_TO_LEFT * 3),
    ("long", "ü" * 127 + "x"), ("a,b=c/../%2F?#", "javascript:alert(3)"), ("lines", "one\ntwo\ttabs\u0000\u2028end"),
]


def try_harm(front, served, page):
    """Texts that would harm a page that takes them for markup stand there as they are, and so do their details."""
    served.tell(*(reported(resource, "net:bgp-peer", "critical", said) for resource, said in HARM))
    alarms = listed(front)
    until(lambda: is_list(page, alarms), "the list with harmful texts is the server's")
    for resource, said in HARM:
        open_row(page, resource)
        wants(page.js("return document.querySelector('#detail .said').textContent") == said, "the detail has another text", said)
    page.click("#detail [data-state=ack]")
    until(lambda: last_action(front, HARM[-1][0]), "the last one is acknowledged")
    found = page.js("return document.querySelectorAll('main :is(img, script, style, b, i, td), #list svg').length")
    wants(found == 0 and "Alarms" in page.driver.title, "a text has become markup", f"{found} {page.driver.title}")
    wide = page.js("return [...document.querySelectorAll('#list .space .row')].every((row) => row.scrollHeight <= row.clientHeight + 1)")
    wants(wide, "a text breaks out of its row")
    page.press(Keys.ESCAPE)


def try_outage(front, served, page):
    """The server is killed, which is told, with since when what is shown is old; and started again."""
    served.kill()
    until(lambda: page.at("#stale").is_displayed(), "the outage is told", 15)
    told = page.text("stale")
    wants("can't be reached since" in told and "What is shown is from" in told, "the outage is told otherwise", told)
    wants(page.js("return document.querySelectorAll('#list .space .row').length") > 5, "what was shown is gone")
    open_row(page, "<b>x</b>")
    page.click("#detail [data-state=ack]")
    until(lambda: "can't be reached" in page.text("notice"), "an action without a server is refused in words")
    page.press(Keys.ESCAPE)
    served.begin()
    until(lambda: not page.at("#stale").is_displayed() and "Up to date" in page.text("state"), "the page goes on", 15)
    served.tell(reported("core7", "sys:load", "minor", "behind the outage"))
    until(lambda: is_list(page, listed(front)), "the list is that of the server again")
    others = [message for message in page.messages() if message["source"] != "network"]
    wants(not others, "messages on the console through the outage", others)


ALARMS = 10_000


def fill(served):
    """Ten thousand alarms, over four connections that are kept."""
    served.tell(INSTALL)
    severities = [b"critical", b"major", b"minor", b"warning", b"indeterminate"]

    def part(first):
        client = served.client()
        for number in range(first, ALARMS, 4):
            resource = b"chassis/1/slot/%d/port/%05d" % (number % 8, number)
            answer = client.ask(report(resource, b"the link has been down for longer than allowed", severities[number % 5]))
            wants(answer and answer.status == 204, "a report isn't taken", answer)
        client.connection.close()

    with ThreadPoolExecutor(4) as pool:
        list(pool.map(part, range(4)))


SCROLL = """
  const body = document.querySelector("#list .body"), end = arguments[0], frames = [];
  let last = performance.now(), most = 0;
  body.scrollTop = 0;
  const step = (time) => {
    frames.push(time - last); last = time;
    most = Math.max(most, document.querySelectorAll("#list .row").length);
    if (frames.length > 120) end([frames.slice(2).sort((a, b) => a - b), most, body.scrollTop]);
    else { body.scrollTop += 1500; requestAnimationFrame(step); }
  };
  requestAnimationFrame(step);"""
FILTER = """
  const input = document.getElementById("filter-text"), end = arguments[1], begin = performance.now();
  input.value = arguments[0];
  input.dispatchEvent(new Event("input", { bubbles: true }));
  const shown = () => end([performance.now() - begin, document.getElementById("shown-list").textContent]);
  requestAnimationFrame(() => requestAnimationFrame(shown));"""


def first_list(page):
    """How many seconds it takes from the address to the list."""
    page.driver.get("about:blank")
    begin = time.monotonic()
    page.driver.get(page.address)
    until(lambda: page.text("shown-list") == f"{ALARMS} of {ALARMS} alarms", "the list is there", 20)
    return time.monotonic() - begin


def scrolled(page):
    """The frame in the middle and the longest one, in milliseconds, while the list scrolls; and how many rows are elements."""
    frames, most, top = page.driver.execute_async_script(SCROLL)
    wants(top > 100_000 and most < 100, "the list doesn't scroll, or has too many elements", f"{top} {most}")
    return [frames[len(frames) // 2], frames[-1], most]


def least(measure, enough):
    """The least of five measures, or the first that is enough."""
    found = measure()
    for _ in range(4):
        if found < enough:
            break
        time.sleep(1)
        found = min(found, measure())
    return found


def try_many(front, served, page):
    """Times of the first list, of frames while it scrolls, and of filters: each the least of some, since others may use the machine."""
    until(lambda: page.text("count-list") == str(ALARMS), "all alarms are followed", 30)
    first = least(lambda: first_list(page), 2)
    until(lambda: "Up to date" in page.text("state"), "the log is there too", 20)
    middle, worst, most = least(lambda: scrolled(page), [50])
    times = []
    for word, count in (("port/00007", 1), ("slot/3", ALARMS // 8), ("0", ALARMS)):
        tries = []
        for _ in range(3):
            page.driver.execute_async_script(FILTER, "chassis")
            spent, shown = page.driver.execute_async_script(FILTER, word)
            wants(shown == f"{count} of {ALARMS} alarms", "the filter lets others through", shown)
            tries.append(spent)
        times.append(min(tries))
    filters = ", ".join(f"{each:.0f}" for each in times)
    told = f"first list {first:.2f} s; filters {filters} ms; frames {middle:.0f} ms in the middle, {worst:.0f} at worst"
    print(f"console: {ALARMS} alarms: {told}; {most} rows are elements")
    wants(first < 2 and max(times) < 200 and middle < 100, "it is too slow", told)


def take_picture(page, path):
    page.size(1280, 800)
    page.press(Keys.ESCAPE)
    open_row(page, TOLD[0])
    time.sleep(0.5)
    page.picture(path)
    if shutil.which("pngquant"):
        subprocess.run(["pngquant", "--force", "--strip", "--output", path, "64", path], check=True)
        wants(os.path.getsize(path) <= 200 * 1024, "the picture is too large", os.path.getsize(path))
    page.press(Keys.ESCAPE)
    page.size(1440, 900)


CONTRAST = """
  const linear = (part) => (part <= 0.04045 ? part / 12.92 : ((part + 0.055) / 1.055) ** 2.4);
  const light = (colour) => {
    const [r, g, b] = colour.match(/[0-9.]+/g).map((part) => linear(part / 255));
    return 0.2126 * r + 0.7152 * g + 0.0722 * b;
  };
  const ground = (each) => {
    const colour = getComputedStyle(each).backgroundColor;
    return colour.startsWith("rgba") && each.parentElement ? ground(each.parentElement) : colour;
  };
  const contrast = (each) => {
    const [dark, bright] = [getComputedStyle(each).color, ground(each)].map(light).sort((a, b) => a - b);
    return [(bright + 0.05) / (dark + 0.05), each.className || each.tagName, each.textContent.slice(0, 20)];
  };
  const texts = document.querySelectorAll(".chip, .part, small, .state, button, legend, .heading, .row .words");
  return [...texts].filter((each) => each.textContent.trim() && each.offsetParent).map(contrast).sort(([a], [b]) => a - b).slice(0, 3);"""
UNNAMED = """
  const controls = [...document.querySelectorAll("button, input, select")];
  return controls.filter((each) => !each.textContent && !each.labels?.length && !each.ariaLabel).length;"""


def try_looks(page):
    """Light and dark by what the system prefers, each with enough contrast; a narrow window needs no scrolling sideways."""
    for scheme in ("light", "dark"):
        page.scheme(scheme)
        time.sleep(0.3)
        least = page.js(CONTRAST)
        wants(least[0][0] >= 4.5, f"too little contrast in {scheme}", least)
    page.scheme("light")
    ground = lambda: page.js("return getComputedStyle(document.body).backgroundColor")
    light = ground()
    page.scheme("dark")
    wants(ground() != light, "dark is as light")
    page.scheme("light")
    page.size(400, 800)
    wants(page.js("return document.documentElement.scrollWidth <= innerWidth"), "a narrow window has to be scrolled sideways")
    page.size(1440, 900)
    unnamed = page.js(UNNAMED)
    wants(unnamed == 0, "a control has no name", unnamed)


def main(program, top, work, picture=None):
    try_source(top)
    front = Front(top, work)
    journal = os.path.join(work, "night.journal")
    journal_of(journal, 1 << 20, night_events(int(time.time() * 1000) - 5000))
    checked(program, journal)
    served = Served(program, front, journal)
    page = Page(front)
    page.load()
    wants(is_list(page, listed(front)), "the list is another than the server's")
    take_picture(page, picture or os.path.join(work, "console.png"))
    try_summary(front, page)
    try_log(front, page)
    try_filters(front, page)
    try_detail(front, page)
    try_looks(page)
    try_following(front, served, page)
    try_actions(front, page)
    page.is_quiet("with nothing refused")
    try_shelf(front, page)
    page.messages()  # the refusal that was wanted
    try_matches(front, served, page)
    try_purge(front, page)
    try_harm(front, served, page)
    page.is_quiet("with harmful texts")
    try_outage(front, served, page)
    served.kill()
    many = os.path.join(work, "many.journal")
    made(program, many, 16 << 20)
    served.words[2] = many
    served.begin()
    until(lambda: page.text("count-list") == "0" and "There is no alarm." in page.text("list"), "an empty history is followed")
    fill(served)
    page.messages()  # requests that failed meanwhile
    try_many(front, served, page)
    page.is_quiet("with 10,000 alarms")
    print("console: each function once, harmful texts, an outage and 10,000 alarms; the list was the server's, and nothing stood on the console")


if __name__ == "__main__":
    main(*sys.argv[1:])
