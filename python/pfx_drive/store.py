"""The store, driven by pfx as a child over pipes. Each record's answer is durable when it is read, and answers come in order."""
import collections
import json
import os
import select
import subprocess
import time

BUSY = "pfx: error 58 Busy"
IN_PIPE = 256               # answers that may be outstanding, so that neither pipe is ever full
PATIENCE = 60.0             # seconds that a store may stay busy, as long as what a killed driver left behind ends
FULL, NO_SUCH_TASK, NOT_NEXT = 64, 31, 45


class Gone(Exception):
    """pfx was killed: open the store again."""


class Full(Exception):
    """This run of pfx takes no more commands: the next one goes on."""


class Refused(Exception):
    """pfx refuses the store or a record, for good: its words and its status."""

    def __init__(self, words, status=4):
        super().__init__(words)
        self.status = status


def as_text(said):
    """What pfx said on standard error, as a person reads it: with --json a refusal is an object there."""
    lines = []
    for line in said.splitlines():
        try:
            it = json.loads(line)
            error, note = it["error"], it["note"] or {}
        except (ValueError, KeyError, TypeError):
            lines.append(line)
            continue
        fields = "".join(f" {key}={value}" for key, value in error["fields"].items())
        lines.append(f"pfx: error {error['number']} {error['name']}{fields}")
        lines += [f"  {note[key]}" for key in ("what", "change", "more") if note.get(key)]
    return "\n".join(lines)


def start_of(board):
    """The slot from which on the weights are in force: there the granted and the recorded units of each task begin at 0 again."""
    return board.get("from", 0)


def jobs_by_place(board, jobs):
    """The jobs by their places. Of an answer that was recorded before the weights came into force the text stands, and no unit is recorded."""
    for job in jobs:
        if job["job"] == "own" and job.get("since", 0) != start_of(board):
            job["answered"] = 0
    return {job["task"]: job for job in jobs}


class Store:
    """An open store. `read` gives what has been answered since: ("ran", row), ("recorded", place, number), ("notnext", place, number)."""

    def __init__(self, program, path, log=None):
        words = [*program, "run", path, "-", "--json", "--workers", "0", "--batch", "16", *(["--log", log] if log else [])]
        try:
            self.child = subprocess.Popen(words, stdin=subprocess.PIPE, stdout=subprocess.PIPE, stderr=subprocess.PIPE,
                                          bufsize=0, start_new_session=True)
        except OSError as error:
            raise Refused(f"no program pfx: {error}", 2) from None
        self.asked, self.later = collections.deque(), collections.deque()
        self.partial = b""

    @property
    def pid(self):
        return self.child.pid

    def fileno(self):
        return self.child.stdout.fileno()

    def send(self, text):
        try:
            self.child.stdin.write(text.encode())
        except BrokenPipeError:
            pass                            # the next line tells

    def lines(self):
        """The objects that have come, at least one: waits for it."""
        while b"\n" not in self.partial:
            read = os.read(self.fileno(), 1 << 16)
            if not read:
                self.over()
            self.partial += read
        whole, _, self.partial = self.partial.rpartition(b"\n")
        return [json.loads(line) for line in whole.split(b"\n")]

    def over(self):
        """The child has ended before it answered."""
        fault = as_text(self.child.stderr.read().decode(errors="replace").strip())
        status = self.child.wait()
        if status < 0:
            raise Gone
        raise Refused(fault or f"pfx ended with status {status}", status or 4)

    def talk(self, text):
        """Sends records, the last of which is `settle,,,,`, and waits for all that they answer."""
        self.send(text)
        got = []
        while not got or "settled" not in got[-1]:
            got += self.lines()
        return got[:-1]

    def look(self, count):
        """The board: the number, the slot, the one from which on the weights are in force, and of each task (alloc, lag, period); the
        jobs by place; and whether the store has exactly so many real tasks."""
        got = self.talk(f"status,,,,\nshow,{count - 1},,,\nshow,{count},,,\nshow,,,,\nsettle,,,,\n")
        board, last, behind, jobs = got[0], got[1], got[2], got[3:]

        def is_idle(it):
            return it.get("refused", {}).get("number") == NO_SUCH_TASK
        rows = [(it["alloc"], it["lag"], it["period"]) for it in board["tasks"]]
        fits = is_idle(behind) and not is_idle(last)
        return board["number"], board["slot"], start_of(board), rows, jobs_by_place(board, jobs), fits

    def ask(self, text, answers):
        """Writes a record and notes which answers it has, or does so once others are answered."""
        if self.later or len(self.asked) >= IN_PIPE:
            self.later.append((text, answers))
            return
        self.asked.extend(answers)
        self.send(text)

    def slots(self, count):
        """Asks for so many slots; each is answered by ("ran", row)."""
        self.ask(f"slot,,,{count},\n", [("ran", None)] * count)

    def record(self, place, number, text):
        """Asks for a unit's answer to be recorded."""
        self.ask(f"submit,{place},own,{number},{text}\n", [("recorded", place, number)])

    def read(self):
        got = []
        for line in self.lines():
            asked = self.asked.popleft()
            if line.get("did") == "ran":
                got.append(("ran", line["tasks"]))
            elif line.get("did") == "submitted":
                got.append(asked)
            elif "refused" in line and line["refused"]["number"] == FULL:
                raise Full
            elif "refused" in line and line["refused"]["number"] == NOT_NEXT:
                got.append(("notnext", *asked[1:]))
            else:
                raise Refused(f"pfx: {json.dumps(line)}")
        while self.later and len(self.asked) < IN_PIPE:
            text, answers = self.later.popleft()
            self.asked.extend(answers)
            self.send(text)
        return got

    def close(self):
        """The end of the input: pfx closes the store and ends."""
        try:
            self.child.stdin.close()
            while os.read(self.fileno(), 1 << 16):
                pass
        except OSError:
            pass
        self.forget()

    def forget(self):
        """Waits for the child, which has ended or ends by itself, and closes the pipes."""
        if not self.child.stdin.closed:
            self.child.stdin.close()
        self.child.wait()
        self.child.stdout.close()
        self.child.stderr.close()


def open_store(program, path, count, wait=None, log=None):
    """An open store, beside its log if there is one, and its look. A run that was left behind may still have it: that is waited for."""
    until = time.monotonic() + PATIENCE
    while True:
        store = Store(program, path, log)
        try:
            return store, store.look(count)
        except Gone:
            store.forget()
        except Refused as refused:
            store.forget()
            if not str(refused).startswith(BUSY) or time.monotonic() > until:
                raise
            (wait or pause)(0.02)


def pause(seconds):
    select.select([], [], [], seconds)
