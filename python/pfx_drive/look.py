"""Looking at a drive while it runs: a small HTTP server on the socket STORE.drive/socket and, if asked for, on a port.

GET /status.json gives everything that there is to see, /metrics the numbers in Prometheus' text form, / a page that shows both live.
On the socket alone POST /resume?task=NAME[&text=TEXT] lets a parked task go on. All of it runs in the drive's own loop, without threads."""
import argparse
import json
import os
import selectors
import socket
import subprocess
import sys
import time
import urllib.parse

from . import ledger
from .place import Mismatch, Place

HEAD_LIMIT = 16384
MOST_LOOKERS = 64
TYPES = {".html": "text/html; charset=utf-8", ".js": "text/javascript; charset=utf-8"}
POLICY = "default-src 'none'; script-src 'self'; style-src 'unsafe-inline'; connect-src 'self'; img-src data:; base-uri 'none'; form-action 'none'"


def rate_of(core):
    """Units recorded a second, over the last ones (at most 256, at most the last half minute)."""
    now = core.clock()
    recent = [moment for moment in core.moments if moment > now - 30]
    return len(recent) / max(now - recent[0], 0.5) if recent else 0.0


def snapshot(drive):
    """What there is to see, as one dictionary. Lags are in parts of the task's period; slots' rows name tasks by their place."""
    core, book = drive.core, drive.core.book
    now = core.clock()
    rows = [[place for place in row if place < len(book.tasks)] for row in core.rows]
    return {
        "store": drive.path, "pid": os.getpid(), "up": round(time.monotonic() - drive.begun, 3), "slot": book.slot, "workers": drive.workers,
        "owe": book.owe, "last_slot": book.last_slot, "stopping": core.is_stopping, "seats": core.engine.seats, "busy": core.under_way,
        "rate": round(rate_of(core), 3), "answered": core.answered_here, "failures": core.failures,
        "pfx": {"pid": core.store.pid, "asked": len(core.store.asked), "reopened": drive.reopened},
        "rows": {"first": book.slot - len(rows), "rows": rows},
        "tasks": [task_told(task, book, now) for task in book.tasks],
        "units": [unit_told(task.unit, now) for task in book.tasks if task.unit],
    }


def task_told(task, book, now):
    return {"name": task.name, "e": task.e, "p": task.p, "granted": task.granted, "recorded": task.recorded,
            "owed": task.owed if task.has_work else 0, "passed": 0 if task.has_work else task.owed, "lag": task.lag(book.slots_here),
            "state": task.state(now), "text": task.text, "failures": task.failures,
            "last_failure": task.last_failure, "answered": task.answered_here, "seconds": round(task.seconds, 3),
            "next_try": round(max(0.0, task.not_before - now), 3)}


def unit_told(unit, now):
    return {"task": unit.task, "number": unit.number, "try": unit.attempt, "seat": unit.seat, "for": round(now - unit.begun, 3)}


METRICS = (
    ("pfx_slots_total", "counter", "Slots that the store has granted.", lambda it: it["slot"]),
    ("pfx_seats", "gauge", "Seats.", lambda it: it["seats"]),
    ("pfx_seats_busy", "gauge", "Seats on which a unit runs.", lambda it: it["busy"]),
    ("pfx_drive_answered_total", "counter", "Units whose answer was recorded since this driver began.", lambda it: it["answered"]),
    ("pfx_drive_failures_total", "counter", "Failed tries since this driver began.", lambda it: it["failures"]),
    ("pfx_drive_reopened_total", "counter", "How often the program pfx was started anew.", lambda it: it["pfx"]["reopened"]),
    ("pfx_drive_up_seconds", "gauge", "How long this driver has run.", lambda it: it["up"]),
)
TASK_METRICS = (
    ("pfx_task_granted_total", "counter", "Units granted to a task.", lambda it: it["granted"]),
    ("pfx_task_recorded_total", "counter", "The number of a task's last recorded unit.", lambda it: it["recorded"]),
    ("pfx_task_owed", "gauge", "Units granted and not yet recorded.", lambda it: it["owed"]),
    ("pfx_task_lag", "gauge", "Slots that a task is due less those granted: between -1 and 1.", lambda it: it["lag"] / it["p"]),
    ("pfx_task_share", "gauge", "A task's weight, in slots of each slot.", lambda it: it["e"] / it["p"]),
    ("pfx_task_failures_total", "counter", "Failed tries of a task since this driver began.", lambda it: it["failures"]),
    ("pfx_task_unit_seconds_total", "counter", "Time that a task's recorded units took since this driver began.", lambda it: it["seconds"]),
    ("pfx_task_parked", "gauge", "1 where a task is parked after a failed unit.", lambda it: int(it["state"] == "parked")),
    ("pfx_task_ended", "gauge", "1 where a task has ended.", lambda it: int(it["state"] == "ended")),
)


def metrics(seen):
    """The numbers in Prometheus' text form. Names of tasks need no quoting there."""
    lines = []
    for name, kind, told, value in METRICS:
        lines += [f"# HELP {name} {told}", f"# TYPE {name} {kind}", f"{name} {value(seen)}"]
    for name, kind, told, value in TASK_METRICS:
        lines += [f"# HELP {name} {told}", f"# TYPE {name} {kind}"]
        lines += [f'{name}{{task="{task["name"]}"}} {value(task)}' for task in seen["tasks"]]
    return "\n".join(lines) + "\n"


class Looker:
    """One connection: reads a request's head, writes its answer, and is closed."""

    def __init__(self, server, link, is_own):
        self.server, self.link, self.is_own = server, link, is_own
        self.head, self.answer = b"", None

    def step(self, _):
        try:
            self.write() if self.answer is not None else self.read()
        except OSError:
            self.server.drop(self)

    def read(self):
        got = self.link.recv(4096)
        self.head += got
        if b"\r\n\r\n" in self.head:
            self.answer = self.server.answer(self.head, self.is_own)
            self.server.selector.modify(self.link, selectors.EVENT_WRITE, self.step)
        elif not got or len(self.head) > HEAD_LIMIT:
            self.server.drop(self)

    def write(self):
        self.answer = self.answer[self.link.send(self.answer):]
        if not self.answer:
            self.server.drop(self)


class Server:
    """Listens on the store's socket and on the port that is asked for."""

    def __init__(self, drive, http=None):
        self.drive, self.selector = drive, drive.selector
        self.lookers, self.listeners = [], []
        self.hosts = None
        self.listen_beside(drive.place)
        if http:
            self.listen_on(http)

    def listen_beside(self, place):
        """The socket's path may be longer than a socket's name may be, so it is named below an open folder."""
        path = place.file("socket")
        if os.path.exists(path):
            os.unlink(path)
        link = socket.socket(socket.AF_UNIX)
        folder = os.open(place.path, os.O_RDONLY)
        before = os.umask(0o177)
        try:
            link.bind(f"/proc/self/fd/{folder}/socket")
        finally:
            os.umask(before)
            os.close(folder)
        self.listen(link, True)

    def listen_on(self, http):
        address, _, port = http.rpartition(":")
        address = (address or "127.0.0.1").strip("[]")
        if not port.isdigit() or int(port) > 65535:
            raise Mismatch(f"--http takes a port, or ADDRESS:PORT, not {http}")
        family = socket.AF_INET6 if ":" in address else socket.AF_INET
        link = socket.socket(family)
        link.setsockopt(socket.SOL_SOCKET, socket.SO_REUSEADDR, 1)
        try:
            link.bind((address, int(port)))
        except OSError as error:
            raise Mismatch(f"--http {http}: {error.strerror}") from None
        # A page from elsewhere may have the browser ask a loopback address under a name of its own: only these names are answered.
        if address.startswith("127.") or address in ("::1", "localhost"):
            self.hosts = {"localhost", "127.0.0.1", "[::1]", address}
        self.listen(link, False)
        self.drive.tell({"event": "http", "address": address, "port": link.getsockname()[1]})

    def listen(self, link, is_own):
        link.listen(32)
        link.setblocking(False)
        self.listeners.append(link)
        self.selector.register(link, selectors.EVENT_READ, lambda _: self.take(link, is_own))

    def take(self, link, is_own):
        try:
            other, _ = link.accept()
        except OSError:
            return
        if len(self.lookers) >= MOST_LOOKERS:
            self.drop(self.lookers[0])
        other.setblocking(False)
        looker = Looker(self, other, is_own)
        self.lookers.append(looker)
        self.selector.register(other, selectors.EVENT_READ, looker.step)

    def drop(self, looker):
        if looker in self.lookers:
            self.lookers.remove(looker)
            self.selector.unregister(looker.link)
            looker.link.close()

    def answer(self, head, is_own):
        """The whole answer to a request."""
        first, *fields = head.split(b"\r\n\r\n")[0].decode("latin-1").split("\r\n")
        words = first.split(" ")
        fields = {name.strip().lower(): value.strip() for name, _, value in (field.partition(":") for field in fields)}
        if len(words) != 3:
            return reply(400, "text/plain", b"not a request\n")
        host = fields.get("host", "")
        host = host if host.endswith("]") else host.rpartition(":")[0] or host
        if not is_own and self.hosts is not None and host not in self.hosts:
            return reply(403, "text/plain", b"not under this name\n")
        method, (path, _, query) = words[0], words[1].partition("?")
        if method == "POST" and is_own and path == "/resume":
            return self.resume(dict(urllib.parse.parse_qsl(query)))
        if method not in ("GET", "HEAD"):
            return reply(405, "text/plain", b"only GET\n")
        return whole_or_head(method, *self.page(path))

    def page(self, path):
        if path == "/status.json":
            return 200, "application/json", json.dumps(snapshot(self.drive), separators=(",", ":"), sort_keys=True).encode() + b"\n"
        if path == "/metrics":
            return 200, "text/plain; version=0.0.4", metrics(snapshot(self.drive)).encode()
        name = {"/": "page.html", "/page.js": "page.js"}.get(path)
        if name is None:
            return 404, "text/plain", b"there is /, /status.json and /metrics\n"
        with open(os.path.join(os.path.dirname(os.path.abspath(__file__)), name), "rb") as it:
            return 200, TYPES[os.path.splitext(name)[1]], it.read()

    def resume(self, query):
        task = next((task for task in self.drive.tasks if task.name == query.get("task")), None)
        text = query.get("text")
        if task is None or text is not None and not ledger.is_text(text):
            return reply(400, "text/plain", b"no such task, or not a text\n")
        if not self.drive.core.resume(task, text):
            return reply(409, "text/plain", f"{task.name} is neither parked nor ended\n".encode())
        return reply(200, "text/plain", f"{task.name} goes on from {task.text or 'the beginning'}\n".encode())

    def close(self):
        for looker in list(self.lookers):
            self.drop(looker)
        for link in self.listeners:
            self.selector.unregister(link)
            link.close()
        try:
            os.unlink(self.drive.place.file("socket"))
        except OSError:
            pass


REASONS = {200: "OK", 400: "Bad Request", 403: "Forbidden", 404: "Not Found", 405: "Method Not Allowed", 409: "Conflict"}


def reply(status, kind, body):
    head = (f"HTTP/1.1 {status} {REASONS[status]}\r\nContent-Type: {kind}\r\nContent-Length: {len(body)}\r\nConnection: close\r\n"
            f"Cache-Control: no-store\r\nX-Content-Type-Options: nosniff\r\nContent-Security-Policy: {POLICY}\r\n\r\n")
    return head.encode() + body


def whole_or_head(method, status, kind, body):
    whole = reply(status, kind, body)
    return whole if method == "GET" else whole[:len(whole) - len(body)]


# --- from another terminal

def ask(store, request):
    """What the driver of a store answers on its socket: status and body; None where none listens."""
    place = Place(store)
    link = socket.socket(socket.AF_UNIX)
    link.settimeout(10)
    try:
        folder = os.open(place.path, os.O_RDONLY)
    except OSError:
        return None
    try:
        link.connect(f"/proc/self/fd/{folder}/socket")
        link.sendall(f"{request} HTTP/1.1\r\nHost: pfx-drive\r\n\r\n".encode())
        whole = b""
        while True:
            got = link.recv(1 << 16)
            if not got:
                break
            whole += got
    except (FileNotFoundError, ConnectionError):
        return None
    finally:
        os.close(folder)
        link.close()
    head, _, body = whole.partition(b"\r\n\r\n")
    return int(head.split()[1]), body


def show_status(words):
    """pfx-drive status STORE [--json]: what a running driver says; where none runs, what the store itself has."""
    given = argparse.ArgumentParser(prog="pfx-drive status")
    given.add_argument("store", metavar="STORE")
    given.add_argument("--json", action="store_true")
    given = given.parse_args(words)
    got = ask(given.store, "GET /status.json")
    if got is None:
        return show_store(given)
    if given.json:
        sys.stdout.write(got[1].decode())
    else:
        print("\n".join(status_lines(json.loads(got[1]))))
    return 0


def show_store(given):
    """What a store has that no driver has now, by pfx itself, with the names beside it."""
    from .drive import find_program
    from .store import jobs_by_place, start_of
    found = []
    for word in ("status", "show"):
        done = subprocess.run([*find_program(), word, given.store, "--json"], stdout=subprocess.PIPE)
        if done.returncode:
            return done.returncode
        found.append([json.loads(line) for line in done.stdout.splitlines()])
    board = found[0][0]
    jobs = jobs_by_place(board, found[1])
    book = ledger.Ledger([ledger.Task(place, *named) for place, named in enumerate(Place(given.store).named())])
    book.slot, book.start = board["slot"], start_of(board)
    for task in book.tasks:
        job = jobs.get(task.place)
        task.granted, task.kind = board["tasks"][task.place]["alloc"], job and job["job"]
        if task.kind == "own":
            task.recorded, task.text = job["answered"], job["text"]
    tasks = [task_told(task, book, time.monotonic()) for task in book.tasks]
    seen = {"store": given.store, "pid": None, "slot": book.slot, "tasks": tasks, "units": []}
    print(json.dumps(seen, separators=(",", ":"), sort_keys=True) if given.json else "\n".join(status_lines(seen)))
    return 0


def ask_resume(words):
    """pfx-drive resume STORE NAME[=TEXT]: tells a running driver that a parked or ended task goes on."""
    given = argparse.ArgumentParser(prog="pfx-drive resume")
    given.add_argument("store", metavar="STORE")
    given.add_argument("task", metavar="NAME[=TEXT]")
    given = given.parse_args(words)
    name, equals, text = given.task.partition("=")
    got = ask(given.store, "POST /resume?" + urllib.parse.urlencode({"task": name, **({"text": text} if equals else {})}, quote_via=urllib.parse.quote))
    if got is None:
        print(f"pfx-drive: no pfx-drive has {given.store}: start it with --resume {given.task}", file=sys.stderr)
        return 2
    print(got[1].decode().strip(), file=sys.stdout if got[0] == 200 else sys.stderr)
    return 0 if got[0] == 200 else 1


def clock_text(seconds):
    """12.3s, 4:05 or 3:04:05."""
    if seconds < 60:
        return f"{seconds:.1f}s"
    minutes, seconds = divmod(int(seconds), 60)
    return f"{minutes}:{seconds:02}" if minutes < 60 else f"{minutes // 60}:{minutes % 60:02}:{seconds:02}"


def status_lines(seen):
    """The status for people: a head, then a line for each task, and one for each failure that was last."""
    doing = {unit["task"]: f"{unit['number']} on {unit['seat']} for {clock_text(unit['for'])}" for unit in seen["units"]}
    if seen["pid"] is None:
        lines = [f"{seen['store']}: slot {seen['slot']:,}, and no pfx-drive has it now"]
    else:
        lines = [f"{seen['store']}: slot {seen['slot']:,}, {seen['busy']} of {seen['seats']} seats busy, {seen['rate']:.3g} units/s, "
                 f"{seen['answered']:,} recorded and {seen['failures']:,} failed tries in {clock_text(seen['up'])}, process {seen['pid']}"
                 + (", stopping" if seen["stopping"] else "")]
    rows = [("task", "share", "granted", "recorded", "owed", "lag", "state", "unit", "text")]
    for task in seen["tasks"]:
        rows.append((task["name"], f"{task['e']}/{task['p']}", str(task["granted"]), str(task["recorded"]), str(task["owed"]),
                     f"{task['lag'] / task['p']:+.2f}", task["state"], doing.get(task["name"], "-"), task["text"] or "-"))
    widths = [max(len(row[at]) for row in rows) for at in range(len(rows[0]))]
    for row in rows:
        lines.append("  ".join(word.rjust(width) if 2 <= at <= 5 else word.ljust(width) for at, (word, width) in enumerate(zip(row, widths))).rstrip())
    lines += [f"{task['name']} failed last: {task['last_failure']}" for task in seen["tasks"] if task["last_failure"]]
    return lines


def progress(drive):
    """One line for a terminal."""
    core = drive.core
    if core is None:
        return "starting"
    tasks = core.book.tasks
    ended, parked = sum(task.has_ended for task in tasks), sum(task.is_parked for task in tasks)
    words = [f"{len(tasks)} tasks" + (f", {ended} ended" if ended else "") + (f", {parked} parked" if parked else ""),
             f"{core.answered_here:,} answered", f"seats {core.under_way}/{core.engine.seats}", f"{rate_of(core):.3g}/s"]
    return ", ".join(words) + (f", {core.failures} failed tries" if core.failures else "")
