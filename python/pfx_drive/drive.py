"""The drive: asks for slots by the rule, begins owed units on free seats, has their answers recorded, each once and in order.

Whatever is killed, the store has what was recorded: units up to a task's recorded number are done, those up to its granted one are
owed, and the next one begins from the recorded text, once that is durable.

Why it is so:
- **The rule for the next slot looks at the board alone.** A window of slots would keep seats as busy, but needs a memory of slots that a
  restart doesn't have.
- **Places without work pass without a record**, so that a task that has ended costs no commits. Where it has work again, what it passed
  is recorded with the unchanged text, number by number: that is all the protocol needs, and a kill in the middle leaves a number and the
  text.
- **Status 75 lets places pass**, rather than stop the others once the task owes O units, as a failed try does. Who has nothing to do
  doesn't mean to stop anybody.
- **A unit's last failure is its answer**, with the text before behind it: that its task is parked is in the store, so no file has to
  agree with it. This takes 12 of the 106 characters.
- **What a last line may be is strict.** A line that isn't a text fails the unit: taking it for none would let a task stand still and look
  well.
- **A unit's seat is free once nothing of its process group is left**, for a moment or two after it has ended.
- **One loop without threads** runs units, asks pfx and answers lookers. All that it waits for is a descriptor, but for results of SLURM,
  which come on a shared file system: these are looked for ten times a second.
- **Over ssh a unit lives by its standard input.** If the drive, its ssh or the connection ends, so does that, and a shell beside the unit
  ends its process group; nothing has to be installed there.
- **There is one way to drive.** Drivers without recorded answers, which looked at the effects instead, were examples here before; they
  gave neither texts nor slots ahead, and each of their rules is one that people forget."""
import collections
import os
import selectors
import shutil
import signal
import subprocess
import sys
import time

from . import ledger, sets
from .engines import LOST, Local, Unit
from .ledger import Ledger, Task
from .place import MARK, Mismatch, Place
from .store import Full, Gone, Refused, open_store

AGAIN = 75                  # the exit status of a unit that asks to be tried again later (EX_TEMPFAIL)
DONE, PARKED, STOPPED = 0, 1, 3     # how a drive ends: all is done; tasks are parked; it was stopped with work left
AT_ONCE = 256               # records sent ahead where places are passed


def find_program():
    """The program pfx: what the variable PFX names, or on the PATH, or beside the command that was started."""
    beside = os.path.join(os.path.dirname(os.path.realpath(sys.argv[0])), "pfx")
    found = shutil.which(os.environ.get("PFX", "pfx")) or ("PFX" not in os.environ and shutil.which(beside))
    if not found:
        raise Refused("no program pfx: put it on the PATH, or have the variable PFX name it", 2)
    return [found]


class Options:
    """What a drive is told. Seconds everywhere; a task's own command, timeout, retries and first text stand in `tasks`, by its name."""

    def __init__(self, command=None, tasks=None, owe=4, slots=None, retries=2, timeout=None, pause=1.0, longest_pause=60.0, grace=5.0,
                 keep=None, resume=None):
        self.command, self.tasks, self.owe, self.slots = command, tasks or {}, owe, slots
        self.retries, self.timeout, self.pause, self.longest_pause, self.grace = retries, timeout, pause, longest_pause, grace
        self.keep = keep                    # outputs of so many recorded units of each task; all of them where it is None
        self.resume = resume or {}          # a task's name, and the text that it goes on from (None: the one that it has)

    def of(self, name, key):
        own = self.tasks.get(name, {}).get(key)
        return getattr(self, key) if own is None else own

    def start(self, name):
        return self.tasks.get(name, {}).get("start", "")


class Core:
    """The part that knows no processes and no files: a ledger, a store to ask, an engine to run units, a clock, and where outputs go.

    `tell` gets an event, a dictionary, for whatever happens."""

    def __init__(self, book, engine, options, tell=lambda event: None, clock=time.monotonic, output=lambda task, number: ""):
        self.book, self.engine, self.options, self.tell, self.clock, self.output = book, engine, options, tell, clock, output
        self.store = None
        self.slots_asked = 0            # of a record that isn't answered yet
        self.under_way = 0
        self.is_stopping = self.is_ending = False
        self.answered_here = self.failures = 0
        self.rows = collections.deque(maxlen=120)
        self.moments = collections.deque(maxlen=256)        # when the last answers were recorded
        self.busy_seconds, self.busy_since = 0.0, None

    # --- the store

    def start(self, store, look):
        """A store was opened, the first or after its pfx has ended: what it has is what holds. Units under way go on."""
        is_first, self.store, self.slots_asked = self.store is None, store, 0
        self.book.number, self.book.slot, start, rows, jobs, _ = look
        if not is_first and start != self.book.start:
            raise Mismatch(f"another program has given the store new weights, at slot {start}: start pfx-drive again, with their set")
        self.book.start = start
        for task, (alloc, _, _) in zip(self.book.tasks, rows):
            task.granted = alloc
            job = jobs.get(task.place)
            task.kind = job["job"] if job else None
            if not task.is_driven:
                continue
            recorded, text = (job["answered"], job["text"]) if job else (0, self.options.start(task.name))
            waited, task.answer = task.answer, None
            if is_first or recorded != task.recorded:
                self.now_recorded(task, recorded, text, waited)
            if task.passing > task.recorded:
                self.pass_places(task)
            elif waited and waited[0] == task.recorded + 1:
                self.record(task, *waited)

    def now_recorded(self, task, number, text, waited):
        """The store has this number and text. A unit under way that it doesn't wait for any more is ended."""
        if waited and waited[0] <= number:
            self.count(task, waited[0])
        task.recorded = number
        task.text = text
        task.passing = max(task.passing, number)
        if task.unit and task.unit.number <= number:
            self.engine.cancel(task.unit)
            task.unit = None

    def begin_tasks(self):
        """At the first start: the text before a task's first unit, and tasks that go on though they had ended or were parked."""
        for task in self.book.tasks:
            first = self.options.start(task.name)
            if task.kind is None and first and task.is_driven:
                self.record(task, 0, first)
            if task.name in self.options.resume:
                self.resume(task, self.options.resume[task.name])

    def resume(self, task, text=None):
        """A parked or ended task goes on from a text, or from that before its failed unit. Whether it was parked or had ended."""
        if task.has_work or not task.is_driven or task.answer:
            return False
        if text is None:
            text = task.text.split(":", 2)[2] if task.is_parked and task.text.count(":") >= 2 else ""
        task.text, task.tries, task.waits, task.not_before = text, 0, 0, 0.0
        self.tell({"event": "resumed", "task": task.name, "text": text})
        self.has_work_again(task)
        return True

    def has_work_again(self, task):
        """Of the places that a task passed, all but the last ones are recorded with its text, one by one, and not run."""
        task.is_idle = False
        task.passing = max(task.recorded, task.granted - self.book.kept())
        if task.passing > task.recorded:
            self.tell({"event": "passed", "task": task.name, "places": task.passing - task.recorded})
            self.pass_places(task)

    def pass_places(self, task):
        """Sends the next numbers of passed places; those behind them when these are recorded."""
        upto = min(task.passing, task.recorded + AT_ONCE)
        for number in range(task.recorded + 1, upto + 1):
            self.record(task, number, task.text)

    def record(self, task, number, text):
        task.answer = (number, text)
        self.store.record(task.place, number, text)

    def read(self):
        """Takes what pfx has answered."""
        for what, *rest in self.store.read():
            if what == "ran":
                self.slots_asked -= 1
                self.book.grant(rest[0])
                self.rows.append(rest[0])
            elif what == "recorded":
                self.recorded(self.book.tasks[rest[0]], rest[1])
            else:
                raise Gone              # somebody else recorded between: look at the store again

    def recorded(self, task, number):
        text = task.answer[1] if task.answer else task.text
        is_passed = 0 < number <= task.passing
        task.recorded, task.text, task.kind = number, text, "own"
        if task.answer and task.answer[0] == number:
            task.answer = None
        if is_passed:
            if task.answer is None and number < task.passing:
                self.pass_places(task)
            return
        if number:
            self.count(task, number)
            self.drop_output(task, number)
        task.tries = task.waits = 0
        task.not_before = 0.0
        if task.has_ended:
            self.tell({"event": "ended", "task": task.name, "number": number, "text": text})
        elif task.is_parked:
            self.tell({"event": "parked", "task": task.name, "number": number, "text": text})

    def drop_output(self, task, number):
        """Removes the output of a unit that is too old to be kept, but for one that failed last, which keeps its task's."""
        if self.options.keep is None or number <= self.options.keep or task.is_parked:
            return
        for ending in (".out", ".err"):
            try:
                os.unlink(self.output(task.name, self.book.key(number - self.options.keep)) + ending)
            except OSError:
                pass

    def count(self, task, number):
        task.answered_here += 1
        self.answered_here += 1
        self.moments.append(self.clock())
        self.tell({"event": "recorded", "task": task.name, "number": number})

    # --- units

    def turn(self):
        """Asks for slots and begins units, as far as the rule and the seats allow."""
        if self.is_stopping:
            return
        now = self.clock()
        for task in self.book.tasks:
            if task.is_idle and task.not_before <= now:
                self.has_work_again(task)
        if self.slots_asked == 0:
            self.slots_asked = self.book.slots_to_ask()
            if self.slots_asked:
                self.store.slots(self.slots_asked)
        while self.under_way < self.engine.seats:
            task = self.book.next_task(now)
            if task is None:
                break
            self.begin(task, now)

    def begin(self, task, now):
        number = task.recorded + 1
        command, key = self.options.of(task.name, "command"), self.book.key(number)
        unit = Unit(task.place, task.name, number, task.text, task.tries + task.waits + 1, command, self.output(task.name, key), key)
        unit.begun, unit.timeout = now, self.options.of(task.name, "timeout")
        if unit.timeout and not self.engine.keeps_time:
            unit.deadline = now + unit.timeout
        task.unit = unit
        self.seats_change(1, now)
        self.engine.begin(unit)
        self.tell({"event": "begun", "task": task.name, "number": number, "try": unit.attempt, "seat": unit.seat})

    def seats_change(self, change, now):
        if self.busy_since is not None:
            self.busy_seconds += self.under_way * (now - self.busy_since)
        self.busy_since = now
        self.under_way += change

    def poll(self):
        """Takes the ends of units, and ends those that take too long."""
        now = self.clock()
        for end in self.engine.poll():
            self.ended(end, now)
        for task in self.book.tasks:
            unit = task.unit
            if unit and unit.deadline is not None and unit.deadline <= now and not unit.is_late:
                unit.is_late = True
                self.engine.cancel(unit)

    def ended(self, end, now):
        """A unit has ended. What isn't waited for, a second end or a late one, is dropped."""
        unit = end.unit
        task = self.book.tasks[unit.place]
        if not unit.is_over:
            unit.is_over = True
            self.seats_change(-1, now)
        if task.unit is not unit:
            return
        task.unit = None
        if end.status != 0 and unit.is_stopped:
            return
        if end.status != 0 and unit.is_late:
            self.fail(task, unit, "time", now, end.why)
        elif end.status is LOST:
            self.tell({"event": "lost", "task": task.name, "number": unit.number, "seat": unit.seat, "why": end.why})
        elif end.status == AGAIN:
            task.waits += 1
            task.not_before = now + self.pause_of(task.waits)
            task.is_idle = True
            self.tell({"event": "again", "task": task.name, "number": unit.number, "in": self.pause_of(task.waits)})
        elif end.status:
            self.fail(task, unit, str(end.status) if end.status > 0 else f"s{-end.status}", now, end.why)
        elif not ledger.is_text(end.text):
            why = f"the last line of its output isn't a text of at most {ledger.LONGEST} visible characters without quote, comma and backslash"
            self.fail(task, unit, "text", now, why)
        else:
            task.seconds += now - unit.begun
            self.record(task, unit.number, end.text or task.text)

    def pause_of(self, count):
        return min(self.options.pause * 2 ** min(count - 1, 30), self.options.longest_pause)

    def fail(self, task, unit, code, now, why):
        task.tries += 1
        task.failures += 1
        self.failures += 1
        how = {"time": "took too long", "text": "gave no text"}.get(code, f"ended with {code}")
        task.last_failure = f"unit {unit.number} {how}" + (f" ({why})" if why else "")
        is_last = task.tries > self.options.of(task.name, "retries")
        self.tell({"event": "failed", "task": task.name, "number": unit.number, "code": code, "why": why, "try": unit.attempt,
                   "last": is_last, "output": unit.output})
        if is_last:
            self.record(task, unit.number, f"{ledger.FAILED}{code}:{task.text}")
        else:
            task.not_before = now + self.pause_of(task.tries)

    # --- the end

    def stop(self):
        """Begins nothing more. What is under way ends and is recorded."""
        self.is_stopping = True

    def end(self):
        """Ends what is under way: those units stay owed."""
        self.is_stopping = self.is_ending = True
        for task in self.book.tasks:
            if task.unit:
                task.unit.is_stopped = True
                self.engine.cancel(task.unit)

    def is_over(self):
        if self.under_way or self.slots_asked or any(task.unit or task.answer for task in self.book.tasks):
            return False
        return self.is_stopping or self.book.is_over()

    def status(self):
        if any(task.is_driven and task.is_parked for task in self.book.tasks):
            return PARKED
        return DONE if self.book.is_over() else STOPPED

    def due(self):
        """How long nothing has to be done where nothing is heard; None for ever."""
        now = self.clock()
        moments = [task.unit.deadline for task in self.book.tasks if task.unit and task.unit.deadline is not None and not task.unit.is_late]
        if not self.is_stopping:
            moments += [task.not_before for task in self.book.tasks if task.not_before > now]
        waits = [max(0.0, moment - now) for moment in moments]
        if self.engine.due() is not None:
            waits.append(self.engine.due())
        return min(waits) if waits else None


class Drive:
    """Runs the units of a set's tasks under their shares: Drive(SET, STORE, command=["./work"]).run() gives 0 once all tasks have ended.

    `engine` may be any `Engine`; without one, `seats` processes of this machine (the set's workers where it isn't said). Beside the file
    `log` the store's whole history is kept. Other words
    are those of `Options`. The store and the folder STORE.drive are made where there are none. A drive runs once."""

    def __init__(self, set_file, store, program=None, seats=None, engine=None, tell=lambda event: None, look=None, log=None, **options):
        self.set_file, self.path, self.tell, self.log = set_file, store, tell, log
        self.program = program or find_program()
        self.options = Options(**options)
        self.workers, tasks = sets.read_set(set_file)
        self.tasks = [Task(place, *task) for place, task in enumerate(tasks)]
        unknown = set(self.options.tasks) | set(self.options.resume)
        unknown -= {task.name for task in self.tasks}
        if unknown:
            raise Mismatch(f"{set_file} has no task {min(unknown)}")
        self.place = Place(store)
        self.seats, self.engine, self.look = seats or self.workers, engine, look
        self.selector = selectors.DefaultSelector()
        self.core = None
        self.begun = time.monotonic()
        self.signals = self.reopened = 0
        self.every = None               # called at least once a second, where it is set

    def run(self):
        """Drives until nothing is left to do or it is told to stop; PARKED where a task is parked, STOPPED where work is left."""
        is_new = not os.path.exists(self.path)
        if is_new and os.path.exists(self.place.file("names")):
            raise Mismatch(f"there is no {self.path}, but {self.place.path} of one: move that away, or put the store back")
        if is_new:
            self.make()
        self.place.take()
        self.place.check_names(self.tasks)
        watch = self.watch_signals()
        try:
            store, look = self.open_compared()
            self.place.end_left(self.options.grace, self.tell)
            return self.drive(store, look)
        finally:
            watch()
            self.place.release()

    def make(self):
        made = subprocess.run([*self.program, "init", self.set_file, self.path], stdout=subprocess.DEVNULL, stderr=subprocess.PIPE, text=True)
        if made.returncode:
            raise Refused(made.stderr.strip(), made.returncode)

    def pause(self, seconds):
        self.selector.select(seconds)

    def open_compared(self):
        while True:
            store, look = open_store(self.program, self.path, len(self.tasks), self.pause, self.log)
            try:
                return self.compare(store, look)
            except Gone:
                store.forget()
            except Mismatch:
                store.close()
                raise

    def compare(self, store, look):
        """Refuses a store of other tasks than the set's. Only behind a slot do the lags tell each weight, so the first one with these weights
        is asked for."""
        self.place.check_weights(look[2])
        self.compare_look(look)
        if look[1] == look[2]:
            store.slots(1)
            while store.asked:
                store.read()
            look = store.look(len(self.tasks))
            self.compare_look(look)
        self.place.keep_weights(self.tasks, look[2])
        return store, look

    def compare_look(self, look):
        _, slot, start, rows, jobs, fits = look
        if not fits:
            raise Mismatch(f"the set has {len(self.tasks)} tasks, and {self.path} another number of them")
        for task, (alloc, lag, period) in zip(self.tasks, rows):
            if period != task.p or task.e * (slot - start) != lag + task.p * alloc:
                raise Mismatch(f"task {task.place}, {task.name}, has the weight {task.e}/{task.p} in the set, and another one in {self.path}")

    def make_engine(self):
        environment = {key: value for key, value in os.environ.items() if key != MARK}
        environment[MARK] = self.place.id
        if self.engine is None:
            return Local(self.seats, self.options.grace, environment, (self.place.units,))
        return self.engine(environment, (self.place.units,)) if callable(self.engine) else self.engine

    def drive(self, store, look):
        engine = self.make_engine()
        engine.tell = self.tell
        book = Ledger(self.tasks, self.options.owe, self.options.slots)
        self.core = Core(book, engine, self.options, self.tell, output=self.place.output)
        served = self.look(self) if self.look else None
        self.tell({"event": "start", "store": self.path, "tasks": len(self.tasks), "seats": engine.seats, "slot": look[1]})
        if engine.fileno() is not None:
            self.selector.register(engine.fileno(), selectors.EVENT_READ, "engine")
        try:
            self.open(store, look)
            self.core.begin_tasks()
            while not self.core.is_over():
                self.once()
            self.core.store.close()
        finally:
            self.end_units(engine)
            if served:
                served.close()
            engine.close()
        status = self.core.status()
        self.tell({"event": "end", "status": status, "answered": self.core.answered_here, "slot": book.slot})
        return status

    def end_units(self, engine):
        """Where the drive ends by a fault: what is under way is ended, and waited for as long as that takes."""
        self.core.end()
        until = time.monotonic() + 3 * self.options.grace
        while self.core.under_way and time.monotonic() < until:
            self.selector.select(0.1)
            for end in engine.poll():
                if not end.unit.is_over:
                    end.unit.is_over = True
                    self.core.under_way -= 1

    def open(self, store, look):
        self.core.start(store, look)
        self.selector.register(store, selectors.EVENT_READ, "store")

    def once(self):
        """One turn of the loop: does what can be done, then waits for the first thing that happens."""
        try:
            self.heed()
            self.core.turn()
            self.wait()
            self.core.poll()
        except Gone:
            self.reopen(False)
        except Full:
            self.reopen(True)

    def heed(self):
        """Does what signals and stop() have asked for."""
        if self.signals and not self.core.is_stopping:
            self.core.stop()
            self.tell({"event": "stopping"})
        if self.signals > 1 and not self.core.is_ending:
            self.core.end()

    def wait(self):
        due = self.core.due()
        if self.every:
            due = min(1.0, due) if due is not None else 1.0
        if self.core.is_over():
            return
        if self.signals and not self.core.is_stopping or self.signals > 1 and not self.core.is_ending:
            return
        for key, events in self.selector.select(due):
            if key.data == "store":
                self.core.read()
            elif callable(key.data):
                key.data(events)
        if self.every:
            self.every()

    def reopen(self, is_full):
        """pfx was killed, or takes no more: another one goes on. Units that are under way go on meanwhile."""
        old = self.core.store
        self.reopened += 1
        self.selector.unregister(old)
        old.close() if is_full else old.forget()
        self.tell({"event": "reopened", "why": "full" if is_full else "gone"})
        store, look = open_store(self.program, self.path, len(self.tasks), lambda seconds: time.sleep(seconds), self.log)
        self.open(store, look)

    def watch_signals(self):
        """SIGTERM, SIGINT and SIGHUP end the drive: the first lets units end, the second ends them. Gives what undoes this."""
        inner, outer = os.pipe()
        os.set_blocking(inner, False)
        os.set_blocking(outer, False)
        try:
            woken = signal.set_wakeup_fd(outer)
            heeded = [signal.SIGTERM, signal.SIGINT]
            if signal.getsignal(signal.SIGHUP) == signal.SIG_DFL:       # not below nohup
                heeded.append(signal.SIGHUP)
            before = {it: signal.signal(it, self.on_signal) for it in heeded}
        except ValueError:                  # not the main thread: whoever runs it calls stop()
            before, woken = {}, -1
        self.inner, self.outer = inner, outer
        self.selector.register(inner, selectors.EVENT_READ, lambda events: os.read(inner, 4096))

        def undo():
            for number, handler in before.items():
                signal.signal(number, handler)
            if before:
                signal.set_wakeup_fd(woken)
            self.selector.close()
            os.close(inner)
            os.close(outer)
        return undo

    def on_signal(self, number, _):
        self.stop()

    def stop(self):
        """Begins nothing more; called again, ends what is under way too. From any thread."""
        self.signals += 1
        if self.core is None:
            raise KeyboardInterrupt
        try:
            os.write(self.outer, b"!")
        except BlockingIOError:
            pass
