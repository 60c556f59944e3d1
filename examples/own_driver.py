#!/usr/bin/env python3
"""The smallest complete driver whose results are in the store: own_driver.py SET STORE SLOTS COMMAND.. runs `COMMAND NAME K TEXT` for
the K-th unit of each task, as many side by side as the set has workers, until the store has run SLOTS slots and all is recorded.

The command prints the text from which the task's next unit begins; pfx records it under the unit's number. Killed at any moment, start
it again with the same words. A unit that fails ends the driver and is owed. The variable PFX names the program. docs/DRIVERS.md says
why it is right; pfx-drive is the driver with everything that this one lacks."""
import os
import queue
import subprocess
import sys
import threading
import time
import tomllib

OWE = 4                 # a slot is asked for only while every task owes fewer units


class Gone(Exception):
    """pfx has ended before it answered: by a signal, or because the store is still busy."""


class Pfx:
    """The store, driven over pipes. A line that was read tells of something durable."""

    def __init__(self, store):
        words = [os.environ.get("PFX", "pfx"), "run", store, "-", "--workers", "0"]
        self.child = subprocess.Popen(words, stdin=subprocess.PIPE, stdout=subprocess.PIPE, stderr=subprocess.PIPE, text=True)

    def ask(self, records):
        try:
            self.child.stdin.write(records)
            self.child.stdin.flush()
        except BrokenPipeError:
            pass                                        # the next line tells

    def line(self):
        line = self.child.stdout.readline()
        if line.endswith("\n"):
            return line[:-1]
        fault = self.child.stderr.read()
        if self.child.wait() < 0 or fault.startswith("pfx: error 58 Busy"):
            raise Gone
        sys.exit(fault)

    def slot(self):
        self.ask("slot,,,,\n")
        return [int(task) for task in self.line().split(": ")[1].split()]

    def answer(self, task, number, text):
        self.ask(f"submit,{task},own,{number},{text}\n")
        return self.line().endswith(f" submitted {task}")

    def close(self):
        self.child.stdin.close()                        # pfx closes the store at the end of its input
        self.child.stdout.read()
        self.child.wait()

    def look(self, tasks):
        """The slot, and of each task how many units are granted, how many recorded, and the last one's text."""
        self.ask("status,,,,\nshow,,,,\nsettle,,,,\n")
        board, granted, recorded, text = self.line().split(), [0] * tasks, [0] * tasks, [""] * tasks
        start = int(board[5]) if len(board) > 5 else 0      # the slot from which on the weights are in force, and all counts
        while not (line := self.line()).startswith("settled "):
            task, what, *rest = line.split()
            if what.startswith("alloc=") and int(task) < tasks:
                granted[int(task)] = int(what[6:])
            elif what == "own":
                text[int(task)] = rest[1][5:]
                if start == (int(rest[2][6:]) if len(rest) > 2 else 0):
                    recorded[int(task)] = int(rest[0][9:])
        return int(board[3]), start, granted, recorded, text


def work(command, ended, task, name, first, number, text):
    """One unit, in a thread of its own. Its last line is the answer."""
    done = subprocess.run([*command, name, f"{first}{number}", text], stdout=subprocess.PIPE, text=True)
    ended.put((task, number, done.returncode, (done.stdout.splitlines() or [text])[-1]))


def drive(pfx, names, seats, slots, command, running, ended):
    """The rule at every moment, a start too: unit K of a task is owed while recorded < K <= granted. They are done in order."""
    tasks = range(len(names))
    slot, start, granted, recorded, text = pfx.look(len(names))
    first = f"{start}." if start else ""                    # new weights number the units from 1 again
    while slot < slots or any(recorded[task] < granted[task] for task in tasks):
        while slot < slots and all(granted[task] - recorded[task] < OWE for task in tasks):
            for task in filter(lambda task: task in tasks, pfx.slot()):
                granted[task] += 1
            slot += 1
        for task in sorted(tasks, key=lambda task: recorded[task] - granted[task]):
            if task not in running and recorded[task] < granted[task] and len(running) < seats:
                running.add(task)
                unit = (command, ended, task, names[task], first, recorded[task] + 1, text[task])
                threading.Thread(target=work, args=unit, daemon=True).start()
        task, number, status, answer = ended.get()
        running.discard(task)
        if status:
            sys.exit(f"own_driver.py: {names[task]} {number} ended with status {status}, and is owed")
        if number == recorded[task] + 1:
            if not pfx.answer(task, number, answer):
                sys.exit(f"own_driver.py: {names[task]} {number}: {answer} isn't recorded")
            recorded[task], text[task] = number, answer


def main():
    set_file, store, slots, *command = sys.argv[1:]
    with open(set_file, "rb") as it:
        it = tomllib.load(it)
    names, running, ended = [task["name"] for task in it["task"]], set(), queue.Queue()
    while True:
        pfx = Pfx(store)
        try:
            drive(pfx, names, it["workers"], int(slots), command, running, ended)
            return pfx.close()
        except Gone:                                    # units under way go on: their answers are as good for the next pfx
            pfx.child.wait()
            time.sleep(0.01)


main()
