#!/usr/bin/env python3
"""A stand-in for the program pfx with jobs of kind `own`, for trials that want it in memory or beside the real one: Algorithm PF by
exact whole numbers, recorded answers, and the protocol of `run FILE -` in text and with --json.

    own_pfx.py init SET FILE | run FILE - [--json] | status FILE [--json] | show FILE [--json]

The variable OWN_PFX_FULL is how many commands a run accepts. Its file is a list of commands, each appended by one write, so it outlives a process that is killed. Only the commands `slot`,
`submit` of kind own, `withdraw`, `status`, `show` and `settle` are there."""
import fcntl
import json
import math
import os
import sys

SEEN = {chr(it) for it in range(0x21, 0x7F)} - set('",\\')


class Fault(Exception):
    """A refusal: its number, its name and its fields."""

    def __init__(self, number, name, **fields):
        super().__init__(name)
        self.number, self.name, self.fields = number, name, fields

    def text(self):
        return " ".join([f"refused {self.number} {self.name}", *(f"{key}={value}" for key, value in self.fields.items())])


def filled(workers, weights):
    """The weights with those of idle tasks: as few as possible, all but the last l-1 of l."""
    hyper = math.lcm(*(p for _, p in weights))
    left = workers * hyper - sum(e * (hyper // p) for e, p in weights)
    found = list(weights)
    while left > 0:
        found.append((min(left, hyper - 1), hyper))
        left -= found[-1][0]
    return found


def symbol(e, p, slot):
    """The characteristic symbol at a slot: the sign of w * (slot + 1) - floor(w * slot) - 1."""
    value = e * (slot + 1) - p * (e * slot // p) - p
    return (value > 0) - (value < 0)


def string(e, p, slot):
    """The symbols behind a slot up to the first 0."""
    found = []
    while not found or found[-1]:
        slot += 1
        found.append(symbol(e, p, slot))
    return found


def row_of(workers, weights, slot, allocs):
    """PF's row: the urgent tasks, and of the contending ones those with the greatest strings, lower numbers first."""
    row, contending = [], []
    for task, ((e, p), alloc) in enumerate(zip(weights, allocs)):
        lag, now = e * slot - p * alloc, symbol(e, p, slot)
        if lag > 0 and now >= 0:
            row.append(task)
        elif not (lag < 0 and now <= 0):
            contending.append(task)
    keys = {task: string(*weights[task], slot) for task in contending}
    contending.sort(key=lambda task: [-it for it in keys[task]])
    return sorted(row + contending[:workers - len(row)])


class Board:
    """The state: the slot, what each task got, and of those that have an own job its number and text."""

    def __init__(self, workers, tasks):
        self.workers, self.real = workers, len(tasks)
        self.weights = filled(workers, tasks)
        self.allocs = [0] * len(self.weights)
        self.slot = self.number = 0
        self.jobs = {}

    def take(self, row):
        for task in row:
            self.allocs[task] += 1
        self.slot += 1
        self.number += 1

    def run_slot(self):
        row = row_of(self.workers, self.weights, self.slot, self.allocs)
        self.take(row)
        return row

    def submit(self, task, number, text):
        if task >= self.real:
            raise Fault(31, "NoSuchTask", task=task)
        if number >= 1 << 40:
            raise Fault(42, "BadGoal")
        if len(text) > 106 or not set(text) <= SEEN:
            raise Fault(43, "BadData")
        if task in self.jobs and number != self.jobs[task][0] + 1 or number > self.allocs[task]:
            raise Fault(45, "NotNext", task=task)
        self.jobs[task] = (number, text)
        self.number += 1

    def withdraw(self, task):
        if task >= self.real:
            raise Fault(31, "NoSuchTask", task=task)
        if task not in self.jobs:
            raise Fault(33, "NoJob", task=task)
        del self.jobs[task]
        self.number += 1

    def rows(self):
        for task, ((e, p), alloc) in enumerate(zip(self.weights, self.allocs)):
            yield {"alloc": alloc, "job": "own" if task in self.jobs else "none", "lag": e * self.slot - p * alloc, "period": p, "task": task}

    def shown(self, task=None):
        if task is not None and task >= self.real:
            raise Fault(31, "NoSuchTask", task=task)
        if task is not None and task not in self.jobs:
            raise Fault(33, "NoJob", task=task)
        for place in sorted(self.jobs) if task is None else [task]:
            yield {"answered": self.jobs[place][0], "job": "own", "task": place, "text": self.jobs[place][1]}


def read_set(path):
    """Workers and weights of a set file that is written line by line."""
    workers, tasks = 1, []
    with open(path, encoding="utf-8") as it:
        for line in it:
            key, _, value = (word.strip() for word in line.split("#")[0].partition("="))
            if key == "workers":
                workers = int(value)
            elif key == "[[task]]":
                tasks.append({})
            elif key in ("e", "p"):
                tasks[-1][key] = int(value)
    return workers, [(task["e"], task["p"]) for task in tasks]


def load(file):
    """The board that a file's commands lead to. A last line that isn't whole was never answered."""
    text = os.read(file, os.fstat(file).st_size).decode()
    head, *lines = text[:text.rfind("\n") + 1].splitlines()
    os.ftruncate(file, text.rfind("\n") + 1)
    board = Board(*json.loads(head))
    for line in lines:
        verb, *rest = line.split(",")
        if verb == "slot":
            board.take([int(task) for task in rest[0].split()])
        elif verb == "submit":
            board.submit(int(rest[0]), int(rest[1]), rest[2])
        else:
            board.withdraw(int(rest[0]))
    return board


def show_text(it):
    return f"{it['task']} own answered={it['answered']} text={it['text']}"


class Session:
    """One run over a file."""

    def __init__(self, file, is_json):
        self.file, self.is_json, self.board = file, is_json, load(file)
        self.last = self.board.number + int(os.environ.get("OWN_PFX_FULL", "1048576"))

    def say(self, text, value):
        os.write(1, (json.dumps(value, separators=(",", ":"), sort_keys=True) if self.is_json else text).encode() + b"\n")

    def must_fit(self):
        if self.board.number >= self.last:
            raise Fault(64, "SessionFull")

    def keep(self, line):
        os.write(self.file, f"{line}\n".encode())

    def slots(self, count):
        for _ in range(count):
            self.must_fit()
            row = self.board.run_slot()
            self.keep("slot," + " ".join(map(str, row)))
            number, slot = self.board.number, self.board.slot - 1
            self.say(f"{number} ran {slot}: {' '.join(map(str, row))}", {"did": "ran", "number": number, "slot": slot, "tasks": row})

    def submit(self, task, kind, goal, data):
        if kind != "own":
            raise Fault(41, "BadKind")
        self.must_fit()
        self.board.submit(task, int(goal), data)
        self.keep(f"submit,{task},{goal},{data}")
        self.say(f"{self.board.number} submitted {task}", {"did": "submitted", "number": self.board.number, "task": task})

    def withdraw(self, task):
        self.board.withdraw(task)
        self.keep(f"withdraw,{task}")
        self.say(f"{self.board.number} withdrawn {task}", {"did": "withdrawn", "number": self.board.number, "task": task})

    def status(self):
        rows, board = list(self.board.rows()), self.board
        lines = [f"{it['task']} alloc={it['alloc']} lag={it['lag']}/{it['period']} job={it['job']}" for it in rows]
        self.say("\n".join([f"board {board.number} slot {board.slot}", *lines]), {"number": board.number, "slot": board.slot, "tasks": rows})

    def show(self, task=None):
        for it in self.board.shown(task):
            self.say(show_text(it), it)

    def answer(self, line):
        verb, task, kind, goal, data = line.split(",")
        if verb == "slot":
            self.slots(int(goal or 1))
        elif verb == "submit":
            self.submit(int(task), kind, goal, data)
        elif verb == "withdraw":
            self.withdraw(int(task))
        elif verb == "status":
            self.status()
        elif verb == "show":
            self.show(int(task) if task else None)
        elif verb == "settle":
            self.say(f"settled {self.board.number}", {"settled": self.board.number})
        else:
            raise ValueError(verb)

    def run(self):
        for line in sys.stdin:
            try:
                self.answer(line.rstrip("\n"))
            except Fault as fault:
                self.say(fault.text(), {"refused": {"fields": fault.fields, "name": fault.name, "number": fault.number}})
            except ValueError:
                print("pfx: error 71 BadScript", file=sys.stderr)
                return 7
        self.say(f"closed {self.board.number}", {"closed": self.board.number})
        return 0


def main(words):
    if words[0] == "init":
        with open(words[2], "x", encoding="utf-8") as it:
            it.write(json.dumps(read_set(words[1])) + "\n")
        return 0
    file = os.open(words[1], os.O_RDWR | os.O_APPEND)
    try:
        fcntl.flock(file, (fcntl.LOCK_EX if words[0] == "run" else fcntl.LOCK_SH) | fcntl.LOCK_NB)
    except BlockingIOError:
        print("pfx: error 58 Busy", file=sys.stderr)
        return 4
    session = Session(file, "--json" in words)
    if words[0] == "run":
        return session.run()
    session.status() if words[0] == "status" else session.show()
    return 0


if __name__ == "__main__":
    sys.exit(main(sys.argv[1:]))
