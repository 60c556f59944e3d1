"""A plain reference of stores with new weights, for trials: what a script prints, which bytes it leaves in the file of a new store, and
the board behind each command. It is written from the pages, by Algorithm PF in exact whole numbers, and shares no code with the program."""
import copy
import json
import math
import re
from fractions import Fraction

from own_pfx import Fault, filled, row_of

OPEN, AREA_END, MOST = b"\xc3", 1024, 16
WEIGHTS = re.compile(r"[0-9]{1,10}/[0-9]{1,10}( [0-9]{1,10}/[0-9]{1,10})*")
DIGITS = re.compile(r"[0-9]{1,10}")


class Malformed(Exception):
    """A record that has no form."""


def little(value, count):
    return value.to_bytes(count, "little")


def least_of(workers, real):
    """The least length of a segment for so many workers and tasks."""
    return max(41 + 2096 * workers, 27 + 8 * real)


def must_be_set(workers, weights):
    """Refuses what is no set."""
    if not 1 <= workers <= 64:
        raise Fault(13, "BadWorkers")
    for task, (e, p) in enumerate(weights):
        if not 1 <= e < p:
            raise Fault(14, "BadWeight", task=task)
    hyper = 1
    for task, (_, p) in enumerate(weights):
        hyper = math.lcm(hyper, p)
        if hyper > 1 << 20:
            raise Fault(16, "HyperperiodTooLarge", task=task)
    if sum(Fraction(e, p) for e, p in weights) > workers:
        raise Fault(17, "Overload")


def within(digits):
    """What a number of a reweigh counts as."""
    return int(digits) if int(digits) < 1 << 32 else 0


def read_weights(text):
    return [tuple(within(number) for number in weight.split("/")) for weight in text.split(" ")]


def write_weights(weights):
    return " ".join(f"{e}/{p}" for e, p in weights)


def started(kind, goal, data):
    """The job that a record starts: what it has left, and its value."""
    if kind != "count":
        raise Fault(41, "BadKind")
    if not 1 <= int(goal or 0) < 1 << 32:
        raise Fault(42, "BadGoal")
    if data and not (DIGITS.fullmatch(data) and int(data) < 1 << 32):
        raise Fault(43, "BadData")
    return int(goal), int(data or 0)


def has_job(kind, goal, data):
    try:
        return bool(started(kind, goal, data))
    except Fault:
        return False


def job_bytes(job):
    return b"\1" + little(job[0], 4) + little(job[1], 8) + bytes(115)


class Store:
    """The state behind the commands that were accepted, the board behind each, and their frames."""

    def __init__(self, workers, weights, segment):
        self.first, self.segment, self.real = (workers, weights), segment, len(weights)
        self.number = self.slot = 0
        self.jobs, self.frames, self.states = {}, [], {}
        self.begin(workers, weights)
        self.keep()

    def begin(self, workers, weights):
        self.workers, self.weights, self.start = workers, filled(workers, weights), self.slot
        self.allocs = [0] * len(self.weights)

    def keep(self):
        """Notes the state behind this number, without what came before it."""
        now = copy.copy(self)
        now.allocs, now.jobs, now.frames, now.states = self.allocs[:], dict(self.jobs), [], {}
        self.states[self.number] = now

    def accept(self, record, joins=False):
        """A command that was accepted: it shares the last frame, or begins one."""
        self.number += 1
        if not joins:
            self.frames.append((self.number, []))
        self.frames[-1][1].append(record)
        self.keep()

    def lags(self):
        return [e * (self.slot - self.start) - p * alloc for (e, p), alloc in zip(self.weights, self.allocs)]

    def must_be_real(self, task):
        if task >= self.real:
            raise Fault(31, "NoSuchTask", task=task)

    def submit(self, task, job, joins):
        self.must_be_real(task)
        if self.jobs.get(task, (0,))[0]:
            raise Fault(32, "TaskBusy", task=task)
        self.jobs[task] = job
        self.accept(b"\1" + little(task, 2) + job_bytes(job), joins)
        return f"{self.number} submitted {task}"

    def withdraw(self, task, joins):
        self.must_be_real(task)
        if self.jobs.pop(task, None) is None:
            raise Fault(33, "NoJob", task=task)
        self.accept(b"\3" + little(task, 2), joins)
        return f"{self.number} withdrawn {task}"

    def run_slot(self, joins):
        row, record = row_of(self.workers, self.weights, self.slot - self.start, self.allocs), b"\2"
        for task in row:
            self.allocs[task] += 1
            left, value = self.jobs.get(task, (0, 0))
            record += little(task, 2) + (b"\1" if left else b"\0")
            if left:
                self.jobs[task] = (left - 1, value + 1)
                record += job_bytes(self.jobs[task])
        self.slot += 1
        self.accept(record, joins)
        return f"{self.number} ran {self.slot - 1}: {' '.join(map(str, row))}"

    def reweigh(self, workers, weights):
        if len(weights) != self.real:
            raise Fault(36, "WrongCount")
        for task, lag in enumerate(self.lags()):
            if lag:
                raise Fault(35, "NotLevel", task=task)
        must_be_set(workers, weights)
        if self.segment < least_of(workers, self.real):
            raise Fault(19, "SegmentTooSmall", least=least_of(workers, self.real))
        self.begin(workers, weights)
        self.accept(b"\4" + little(workers, 1) + b"".join(little(number, 4) for weight in weights for number in weight))
        return f"{self.number} reweighed {self.slot}"

    def board(self):
        lines = [f"board {self.number} slot {self.slot}" + (f" from {self.start}" if self.start else "")]
        for task, ((_, p), alloc, lag) in enumerate(zip(self.weights, self.allocs, self.lags())):
            job = "none" if task not in self.jobs else "open" if self.jobs[task][0] else "done"
            lines.append(f"{task} alloc={alloc} lag={lag}/{p} job={job}")
        return lines

    def shown(self, task=None):
        if task is not None:
            self.must_be_real(task)
            if task not in self.jobs:
                raise Fault(33, "NoJob", task=task)
        for place in sorted(self.jobs) if task is None else [task]:
            yield "{} count left={} value={}".format(place, *self.jobs[place])

    def file(self):
        """The bytes of the file, or None where the frames don't fit into the first segment."""
        frames = b"".join(OPEN + little(sum(map(len, records)), 4) + little(first, 8) + little(len(records), 2) + b"".join(records)
                          for first, records in self.frames)
        if 9 + len(frames) + 1 > self.segment:
            return None
        workers, weights = self.first
        pairs = b"".join(little(e, 4) + little(p, 4) for e, p in weights)
        header = OPEN + b"PFXSTORE\2" + little(workers, 1) + little(self.real, 2) + little(self.segment, 4) + pairs
        area = OPEN + bytes(24) + little(workers, 1) + pairs + bytes(137 * self.real + AREA_END)
        first = OPEN + little(1, 8) + frames
        return header + area + bytes(len(area)) + first + bytes(2 * self.segment - len(first))


class Run:
    """A script's run: its lines, and of each the last number that it tells of, or 0; its status, and the fault that ends it."""

    def __init__(self, store, records, window=1):
        self.store, self.window, self.lines, self.told, self.status, self.fault = store, window, [], [], 0, ""
        self.part()
        for at, record in enumerate(records, 1):
            try:
                self.take(*record)
            except Fault as fault:
                self.say(fault.text())
            except Malformed:
                self.status, self.fault = 7, f"pfx: error 71 BadScript at={at}"
                return
        self.say(f"closed {store.number}")

    def say(self, line):
        words = line.split()
        self.lines.append(line)
        self.told.append(int(words[0]) if words[1] in ("submitted", "ran", "withdrawn", "reweighed") else
                         int(words[1]) if words[0] in ("settled", "board", "closed") else 0)

    def part(self):
        """What comes shares no frame with what came."""
        self.group, self.is_framed = [], False

    def share(self, task, call):
        """A command that gives a task a job or takes it away: it shares the frame of those just before it, a task once, 16 of them."""
        if task in self.group:
            self.part()
            return self.say(call(False))
        if len(self.group) == MOST:
            self.part()
        self.group.append(task)
        self.say(call(self.is_framed))
        self.is_framed = True

    def take(self, verb, task="", kind="", goal="", data=""):
        store = self.store
        if verb == "withdraw":
            return self.share(int(task), lambda joins: store.withdraw(int(task), joins))
        if verb == "submit" and has_job(kind, goal, data):
            return self.share(int(task), lambda joins: store.submit(int(task), started(kind, goal, data), joins))
        self.part()
        if verb == "submit":
            started(kind, goal, data)
        elif verb == "slot":
            for at in range(int(goal or 1)):
                self.say(store.run_slot(at % self.window != 0))
        elif verb == "reweigh" and not task and not kind and DIGITS.fullmatch(goal) and WEIGHTS.fullmatch(data):
            self.say(store.reweigh(within(goal), read_weights(data)))
        elif verb == "settle":
            self.say(f"settled {store.number}")
        elif verb in ("status", "show"):
            for line in store.board() if verb == "status" else store.shown(int(task) if task else None):
                self.say(line)
        else:
            raise Malformed

    def text(self):
        return "".join(f"{line}\n" for line in self.lines)


def number_or_text(word):
    return int(word) if word.lstrip("-").isdigit() else word


def objects_of(lines):
    """The lines of `--json` for these lines of a run."""
    objects = []
    for line in lines:
        words = line.split()
        if words[0] == "board":
            head = {key: int(value) for key, value in zip(("number", "slot", "from"), words[1::2])}
            objects.append({**head, "tasks": []})
        elif words[0] in ("settled", "closed"):
            objects.append({words[0]: int(words[1])})
        elif words[0] == "refused":
            fields = {key: number_or_text(value) for key, value in (word.split("=") for word in words[3:])}
            objects.append({"refused": {"fields": fields, "name": words[2], "number": int(words[1])}})
        elif words[1].startswith("alloc="):
            values = dict(word.split("=") for word in words[1:])
            lag, period = values.pop("lag").split("/")
            row = {"alloc": int(values["alloc"]), "job": values["job"], "lag": int(lag), "period": int(period), "task": int(words[0])}
            objects[-1]["tasks"].append(row)
        elif words[1] == "count":
            objects.append({"job": "count", "task": int(words[0]), **{key: int(value) for key, value in (word.split("=") for word in words[2:])}})
        elif words[1] == "ran":
            objects.append({"did": "ran", "number": int(words[0]), "slot": int(words[2][:-1]), "tasks": list(map(int, words[3:]))})
        else:
            key = "slot" if words[1] == "reweighed" else "task"
            objects.append({"did": words[1], "number": int(words[0]), key: int(words[2])})
    return [json.dumps(it, separators=(",", ":"), sort_keys=True) for it in objects]


# ---- drawn sets and scripts

PERIODS = [2, 3, 4, 6, 12]


def drawn_weights(draw, count):
    """So many weights, of any sum."""
    periods = [draw.choice(PERIODS) for _ in range(count)]
    return [(draw.randint(1, p - 1), p) for p in periods]


def drawn_store(draw, room=6000):
    """A set of one to four workers and up to seven tasks, which fits, with up to so many bytes more in a segment than it needs."""
    weights = drawn_weights(draw, draw.randint(1, 7))
    workers = max(math.ceil(sum(Fraction(e, p) for e, p in weights)), draw.randint(1, 4))
    return Store(workers, weights, 41 + 2096 * workers + draw.randint(0, room))


def set_text(store):
    workers, weights = store.first
    tasks = "".join(f'\n[[task]]\nname = "t{at}"\ne = {e}\np = {p}\n' for at, (e, p) in enumerate(weights))
    return f"workers = {workers}\nsegment = {store.segment}\n{tasks}"


def script_text(records):
    return "".join(",".join(map(str, (*record, *[""] * (5 - len(record))))) + "\n" for record in records)


def drawn_reweigh(draw, store):
    """New weights, most of which are accepted at a level slot of a store whose segments have room for them."""
    weights = drawn_weights(draw, store.real)
    workers = max(math.ceil(sum(Fraction(e, p) for e, p in weights)), draw.randint(1, 4))
    wrong = draw.choice(["no"] * 7 + ["count", "weight", "hyper", "workers", "overload", "many"])
    place = draw.randrange(store.real)
    if wrong == "count":
        weights = weights + [(1, 2)] if store.real == 1 or draw.random() < 0.5 else weights[:-1]
    elif wrong == "weight":
        weights[place] = draw.choice([(0, 3), (3, 3), (4, 3), (5000000000, 3), (1, 5000000000), (0, 0)])
    elif wrong == "hyper":
        weights[place] = (1, draw.choice([1048577, 4294967295]))
    elif wrong == "workers":
        workers = draw.choice([0, 65, 4294967296, 4294967295])
    elif wrong == "overload":
        weights, workers = [(5, 6)] * store.real, 1
    elif wrong == "many":
        workers = draw.choice([5, 8, 64])
    return ("reweigh", "", "", str(workers), write_weights(weights))


def to_level(store):
    """How many slots it is to the next multiple of the hyperperiod."""
    hyper = math.lcm(*(p for _, p in store.weights))
    return -(store.slot - store.start) % hyper


def drawn_record(draw, store):
    """Records that a machine takes or refuses, one or two."""
    task = str(draw.randint(0, store.real))
    kind = draw.choice(["submit"] * 3 + ["slot"] * 3 + ["withdraw"] * 2 + ["settle", "status", "show", "shown"] + ["reweigh"] * 5)
    if kind == "submit":
        job = draw.choice([(draw.randint(1, 40), draw.randint(0, 9)), (2, ""), (1, 4294967295), (0, ""), (3, "x"), ("", 4294967296)])
        return [("submit", task, draw.choice(["count"] * 9 + ["sum"]), *map(str, job))]
    if kind == "slot":
        return [("slot", "", "", draw.choice(["", "1", "2", "3", "7", "20"]))]
    if kind == "withdraw" or kind == "shown":
        return [("withdraw" if kind == "withdraw" else "show", task)]
    if kind != "reweigh":
        return [(kind,)]
    slots = to_level(store)
    leads = [("slot", "", "", str(slots))] if slots and draw.random() < 0.8 else []
    return leads + [drawn_reweigh(draw, store)]


def drawn_script(draw, store, records):
    """A script of some records for this store, which is then behind it."""
    script = []
    while len(script) < records:
        more = drawn_record(draw, store)
        Run(store, more)
        script += more
    return script
