"""What the trials share that kill drivers of recorded answers: a set, units whose texts tell all before them, and a look at the store.

Unit K of task `tI` begins from the text `K-1:SUM:sss` and gives `K:SUM + (I + 1) * K:ssss`: one that is left out, done twice, out of
order or from an old text shows in every later one. Each unit also says in a log that it begins. New weights number the units from 1
again, as T0.1, and the sum goes on."""
import collections
import os
import subprocess
import sys
import time

WEIGHTS = [(2, 3), (1, 2), (1, 3), (1, 4), (1, 5)]
WORKERS, OWE = 2, 4
ROUND = 60              # after so many slots no task is ahead or behind
UNIT = """#!/bin/sh
echo "$1 $2" >>"$LOG"
number=${2#*.}
%s
was=${3#*:} pad=$((number %% 40)) text=
was=${was%%%%:*}
while [ $pad -gt 0 ]; do text=${text}s pad=$((pad - 1)); done
%s
echo "$number:$((${was:-0} + (${1#t} + 1) * number)):$text"
"""


def write_set(room, weights):
    with open(f"{room}/set.toml", "w") as it:
        it.write(f"workers = {WORKERS}\nsegment = {max(8192, 41 + 2096 * WORKERS)}\n")      # so that segments turn often
        it.write("".join(f'[[task]]\nname = "t{place}"\ne = {e}\np = {p}\n' for place, (e, p) in enumerate(weights)))


def write_files(room, before="", during=""):
    """The set and the unit; `before` and `during` are lines of the unit's own."""
    write_set(room, WEIGHTS)
    with open(f"{room}/unit", "w") as it:
        it.write(UNIT % (before, during))
    os.chmod(f"{room}/unit", 0o755)


def wanted(place, number, before=""):
    """The text behind so many units of a task, which had that text before the first of them."""
    if not number:
        return before
    total = int(before.split(":")[1]) if before else 0
    return f"{number}:{total + (place + 1) * number * (number + 1) // 2}:" + "s" * (number % 40)


def called(program, word, store):
    """What `pfx status` or `pfx show` prints. What a killed driver has left may still have the store."""
    for _ in range(100):
        done = subprocess.run([program, word, store], capture_output=True, text=True)
        if done.returncode == 0:
            return done.stdout.splitlines()
        time.sleep(0.02)
    sys.exit(f"the store isn't opened: {done.stderr}")


class Looks:
    """What was seen of a store each time that no driver was there."""

    def __init__(self, program, store):
        self.program, self.store = program, store
        self.last = {}
        self.count = 0
        self.owed = collections.Counter()
        self.start, self.weights, self.before = 0, list(WEIGHTS), [""] * len(WEIGHTS)
        self.recorded_before = 0        # units of all weights before those in force

    def look(self):
        """Compares board and texts with what has to be so at every moment; the slot, and of each task what is granted and recorded."""
        head, *rows = called(self.program, "status", self.store)
        jobs = [line.split() for line in called(self.program, "show", self.store)]
        texts = {int(words[0]): (self.number_of(words), words[3].removeprefix("text=")) for words in jobs}
        granted, recorded = [], []
        for place, (line, (e, p)) in enumerate(zip(rows, self.weights)):
            alloc = int(line.split()[1].removeprefix("alloc="))
            lag = int(line.split()[2].removeprefix("lag=").split("/")[0])
            number, text = texts.get(place, (0, ""))
            before = self.before[place]
            self.must(number <= alloc <= number + OWE, f"task {place}: granted {alloc}, recorded {number}")
            self.must(text == wanted(place, number, before), f"task {place} has {text} behind {number} units, not {wanted(place, number, before)}")
            self.must(-p < lag < p, f"task {place}: a lag of {lag}/{p}")
            self.must((number, alloc) >= self.last.get(place, (0, 0)), f"task {place} went back to {number} of {alloc}")
            self.last[place] = (number, alloc)
            self.owed[alloc - number] += 1
            granted.append(alloc)
            recorded.append(number)
        self.count += 1
        slot, start = (*map(int, head.split()[3::2]), 0)[:2]
        self.must(start == self.start, f"weights since {start}, not {self.start}")
        return slot, granted, recorded

    def number_of(self, words):
        """How many units were answered since the weights in force are, by a line of `pfx show`."""
        since = int(words[4].removeprefix("since=")) if len(words) > 4 else 0
        return int(words[2].removeprefix("answered=")) if since == self.start else 0

    def level_slot(self):
        """The next slot, or this one, at which no task is ahead or behind."""
        slot = self.look()[0]
        return slot + -(slot - self.start) % ROUND

    def reweigh(self, room, chance):
        """Gives the tasks each other's weights, where nothing is owed and no task is ahead or behind."""
        slot, granted, recorded = self.look()
        self.must(granted == recorded, f"granted {granted}, recorded {recorded}")
        chance.shuffle(self.weights)
        script = f"reweigh,,,{WORKERS}," + " ".join(f"{e}/{p}" for e, p in self.weights) + "\n"
        done = subprocess.run([self.program, "run", self.store, "-"], input=script, capture_output=True, text=True)
        self.must(f" reweighed {slot}\n" in done.stdout, f"new weights at slot {slot}: {done.stdout}{done.stderr}")
        self.before = [wanted(place, number, before) for place, (number, before) in enumerate(zip(recorded, self.before))]
        self.start, self.last = slot, {}
        self.recorded_before += sum(recorded)
        write_set(room, self.weights)

    def must(self, holds, why):
        if not holds:
            sys.exit(f"look {self.count}: {why}")


def children(pid, word=None):
    """The processes that a process has started, those with this word alone where one is given."""
    found = []
    for name in filter(str.isdigit, os.listdir("/proc")):
        try:
            with open(f"/proc/{name}/stat") as it:
                state = it.read().rsplit(")", 1)[1].split()
            if int(state[1]) != pid or state[0] in "ZX":
                continue
            with open(f"/proc/{name}/cmdline", "rb") as it:
                words = it.read().split(b"\0")
        except OSError:
            continue
        if word is None or word.encode() in words:
            found.append(int(name))
    return found


def kill(pid):
    try:
        os.kill(pid, 9)
    except ProcessLookupError:
        return False
    return True


def kill_at_random(start, kills, chance, looks, moment, between=None):
    """Starts a driver and kills it, its pfx or both, again and again, each time after a moment that no one chose. How often each was."""
    killed = collections.Counter()
    driver = start()
    while sum(killed.values()) < kills:
        time.sleep(moment(chance))
        if driver.poll() is not None:
            sys.exit(f"the driver ended with {driver.returncode} after {sum(killed.values())} kills")
        who = chance.choice(["driver", "pfx", "both"])
        below = children(driver.pid, "run")
        if who != "driver" and not any([kill(pid) for pid in below]):
            continue
        if who != "pfx":
            kill(driver.pid)
            driver.wait()
            if between:
                between()
            looks.look()
            driver = start()
        killed[who] += 1
    kill(driver.pid)
    driver.wait()
    return killed


def kill_over_weights(rounds, start, drive_to, kills, chance, looks, moment, room, between=None):
    """Kills a driver at random over so many sets of weights: each time it is driven on to where the tasks can be given others. How often
    each was killed, and the slot at the end."""
    killed = collections.Counter()
    for number in range(rounds):
        killed += kill_at_random(start, kills * (number + 1) // rounds - kills * number // rounds, chance, looks, moment, between)
        end = looks.level_slot() if number + 1 < rounds else looks.look()[0] + 20
        drive_to(end)
        slot, granted, recorded = looks.look()
        looks.must(slot == end and granted == recorded, f"at slot {slot} of {end}: granted {granted}, recorded {recorded}")
        if number + 1 < rounds:
            looks.reweigh(room, chance)
    return killed, end, looks.recorded_before + sum(recorded)


def runs_of(log):
    """How often each unit was begun, by the log."""
    with open(log) as it:
        return collections.Counter(it.read().splitlines())
