"""What the checks of the running program share: requests, answers, and what is in a journal. Python's standard library alone."""
import atexit
import json
import socket
import struct
import subprocess
import sys
import time
from collections import namedtuple

Answer = namedtuple("Answer", "status place body")
Entry = namedtuple("Entry", "time origin kind resource text")

A = b"/restconf/data/ietf-alarms:alarms"


def sent(method, path, body=None, fields=b""):
    """A request, with its length where it has a body."""
    if body is not None:
        fields += b"Content-Length: %d\r\n" % len(body)
    return b"%s %s HTTP/1.1\r\n%s\r\n%s" % (method, path, fields, body or b"")


INSTALL = sent(
    b"PUT",
    b"/restconf/data/alarmd:inventory",
    b'{"alarmd:inventory":{"identity":[{"name":"ex:link","base":"ietf-alarms:alarm-type-id"}],'
    b'"alarm-type":[{"alarm-type-id":"ex:link","will-clear":true,"description":"A link is down"}]}}',
)
COUNT = sent(b"GET", A + b"/alarm-list/number-of-alarms")


def report(resource, text, severity=b"major", fields=b""):
    """A report on ex:link."""
    body = (
        b'{"alarmd:input":{"alarm-text":"%s","alarm-type-id":"ex:link","perceived-severity":"%s","resource":"%s"}}'
        % (text, severity, resource)
    )
    return sent(b"POST", b"/restconf/operations/alarmd:report", body, fields)


def answer_in(data, at=0):
    """The whole answer that stands at this place, and the place behind it; None where it isn't whole."""
    end = data.find(b"\r\n\r\n", at)
    if end < 0:
        return None
    lines = data[at:end].split(b"\r\n")
    fields = {name.strip().lower(): value.strip() for name, _, value in (line.partition(b":") for line in lines[1:])}
    length = int(fields.get(b"content-length", b"0"))
    behind = end + 4 + length
    if behind > len(data):
        return None
    status = int(lines[0].split(b" ")[1])
    place = int(fields[b"alarm-place"]) if b"alarm-place" in fields else None
    return Answer(status, place, data[end + 4 : behind]), behind


def answers_in(data):
    """All whole answers in these bytes."""
    answers, at = [], 0
    while (found := answer_in(data, at)) is not None:
        answers.append(found[0])
        at = found[1]
    return answers


class Client:
    """One connection, that sends a request and then waits for its answer."""

    def __init__(self, connection):
        self.connection = connection
        self.buffer = b""

    def ask(self, request):
        """The answer; None where the connection ended before it was whole."""
        try:
            self.connection.sendall(request)
            return self.answer()
        except OSError:
            return None

    def answer(self):
        while (found := answer_in(self.buffer)) is None:
            piece = self.connection.recv(65536)
            if not piece:
                return None
            self.buffer += piece
        self.buffer = self.buffer[found[1] :]
        return found[0]


def held_port():
    """A socket whose port nobody else is given while it is there. Nothing listens to it, so that a server may take the port beside it."""
    held = socket.socket()
    held.setsockopt(socket.SOL_SOCKET, socket.SO_REUSEADDR, 1)
    held.bind(("127.0.0.1", 0))
    return held


class Server:
    """A running `alarmd serve` on a free port of this machine; it begins with this call, where one is given."""

    def __init__(self, program, journal, workers, connections, begin=None):
        self.held = held_port()
        self.port = self.held.getsockname()[1]
        words = [program, "serve", journal, f"127.0.0.1:{self.port}", str(workers), str(connections)]
        self.child = subprocess.Popen(words, stdout=subprocess.PIPE, preexec_fn=begin)
        self.gone = False
        atexit.register(self.kill)

    def connect(self, room=None):
        """A connection; None where the server is gone, or gave none for ten seconds. ROOM: about how many bytes of answers wait in it."""
        for _ in range(2000):
            if self.gone:
                return None
            connection = socket.socket()
            connection.settimeout(20)
            connection.setsockopt(socket.IPPROTO_TCP, socket.TCP_NODELAY, 1)
            if room:
                connection.setsockopt(socket.SOL_SOCKET, socket.SO_RCVBUF, room)
            try:
                connection.connect(("127.0.0.1", self.port))
            except OSError:
                connection.close()
                time.sleep(0.005)
                continue
            return connection
        return None

    def wait(self):
        """Waits until the port is taken, without a connection."""
        address = "0100007F:%04X" % self.port
        for _ in range(2000):
            with open("/proc/net/tcp") as table:
                if any(line.split()[1] == address and line.split()[3] == "0A" for line in table):
                    return
            time.sleep(0.005)
        sys.exit("the server isn't there within ten seconds")

    def kill(self):
        self.gone = True
        if self.child.returncode is None:
            self.child.kill()
            self.child.wait()
            self.child.stdout.close()

    def ended(self):
        """What the server told, and its status, once it has ended by itself."""
        output, _ = self.child.communicate(timeout=60)
        return output, self.child.returncode


def made(program, journal, capacity):
    """Makes a journal."""
    output = subprocess.run([program, "init", journal, str(capacity)], stdout=subprocess.PIPE).stdout
    if output != b"made %d\n" % capacity:
        sys.exit(f"init told {output!r}")


def checked(program, journal):
    """What `check` tells, by its words."""
    done = subprocess.run([program, "check", journal], stdout=subprocess.PIPE)
    if done.returncode:
        sys.exit(f"check ended with {done.returncode}: {done.stdout!r}")
    return {line.split()[0]: int(line.split()[1]) for line in done.stdout.decode().splitlines()}


def session(program, journal, requests):
    """The answers of a session over these requests."""
    done = subprocess.run([program, "session", journal], input=b"".join(requests), stdout=subprocess.PIPE)
    if done.returncode:
        sys.exit(f"a session ended with {done.returncode}")
    return answers_in(done.stdout)


def frames_from(program, journal, place):
    """The frames of the entries from this place on. Entries are short here, so that each page but the last has 64."""
    length = page_of(session(program, journal, [page_at(place)])[0])[0]
    starts = range(place, length, 64)
    frames = []
    for start, answer in zip(starts, session(program, journal, [page_at(start) for start in starts]), strict=True):
        page = page_of(answer)[1]
        if len(page) != min(64, length - start):
            sys.exit(f"the page at {start} has {len(page)} entries, of {length}")
        frames += page
    return frames


def page_of(answer):
    """How many entries the journal has, and the frames of this page."""
    if answer.status != 200:
        sys.exit(f"a page of the journal is answered by {answer.status}")
    page = json.loads(answer.body)["alarmd:journal"]
    return page["length"], [bytes.fromhex(frame) for frame in page.get("entry", [])]


def page_at(place):
    return sent(b"GET", b"/restconf/data/alarmd:journal?from=%d" % place)


def entries_from(program, journal, place):
    """The entries from this place on; resource and text are None where an entry is no report."""
    return [entry_of(frame) for frame in frames_from(program, journal, place)]


def entry_of(frame):
    time, origin, kind = struct.unpack_from(">QHB", frame)
    if kind != 1:
        return Entry(time, origin, kind, None, None)
    texts, at = [], 11
    for step in range(4):
        if step == 3:
            at += 1  # the severity
        (length,) = struct.unpack_from(">H", frame, at)
        texts.append(frame[at + 2 : at + 2 + length])
        at += 2 + length
    return Entry(time, origin, kind, texts[0], texts[3])
