"""What runs units: an engine has three calls, begin, poll and cancel. `Local` runs them as processes of this machine.

A unit may run more than once, at the same time too (a connection is lost, and the unit goes on there); its answer is recorded once,
because the drive takes the first end of the unit that it waits for, and pfx takes each number once."""
import collections
import os
import select
import signal
import subprocess
import threading
import time

LOST = None                 # the status of a unit of which no end is known: it is begun again, elsewhere if there is an elsewhere
TAIL = 4096                 # bytes of an output in which its last line is looked for

# How a unit ended: its exit status (-N: by signal N; LOST), the last line of its output, and what couldn't be done, for people.
End = collections.namedtuple("End", "unit status text why", defaults=("", ""))


class Unit:
    """One try at unit `number` of a task, whose name is `key`. `seat` is a word of the engine's for people."""

    __slots__ = ("place", "task", "number", "text", "attempt", "command", "begun", "deadline", "timeout", "is_late", "is_stopped", "is_over", "seat",
                 "output", "key")

    def __init__(self, place, task, number, text, attempt, command, output, key=None):
        self.place, self.task, self.number, self.text, self.attempt = place, task, number, text, attempt
        self.command, self.output, self.key = command, output, key or str(number)
        self.begun = self.deadline = self.timeout = None
        self.is_late = self.is_stopped = self.is_over = False
        self.seat = ""

    def words(self):
        """The program and its words. A line for the shell has task, unit and text as $1, $2 and $3."""
        told = [self.task, self.key, self.text]
        return ["/bin/sh", "-c", self.command, "pfx-drive", *told] if isinstance(self.command, str) else [*self.command, *told]

    def environment(self):
        return {"PFX_TASK": self.task, "PFX_NUMBER": self.key, "PFX_TEXT": self.text, "PFX_TRY": str(self.attempt)}


class Engine:
    """What the drive asks of an engine. It waits until `fileno` is readable or `due` seconds have passed, and then polls.

    A unit that was cancelled is told of by poll once nothing of it is left here; any unit may be told of late, twice, or as LOST."""

    seats = 1               # how many units it takes at a time; may change
    keeps_time = False      # whether it ends units that take longer than their timeout itself

    def tell(self, event):
        """Tells of what isn't a unit's end, such as a lost host. The drive sets it."""

    def begin(self, unit):
        """Starts a unit. Called only while fewer than `seats` are under way."""
        raise NotImplementedError

    def poll(self):
        """The ends of units since the last call, without waiting."""
        raise NotImplementedError

    def cancel(self, unit):
        """Ends a unit that is under way. Poll tells of it as of any other."""
        raise NotImplementedError

    def fileno(self):
        return None

    def due(self):
        return None

    def close(self):
        pass


def last_line(path):
    """The last line of a file that isn't blank, without spaces at its ends; nothing where there is none."""
    try:
        with open(path, "rb") as it:
            it.seek(max(0, os.fstat(it.fileno()).st_size - TAIL))
            lines = it.read().decode(errors="replace").split("\n")
    except OSError:
        return ""
    return next((line.strip() for line in reversed(lines) if line.strip()), "")


class Ends:
    """Tells which processes have ended, by a descriptor that is readable then: a pidfd each, or a thread where the system has none."""

    def __init__(self):
        self.epoll = select.epoll()
        self.by_file = {}
        self.of_threads = collections.deque()
        self.inner, self.outer = os.pipe()
        os.set_blocking(self.inner, False)
        self.epoll.register(self.inner, select.EPOLLIN)

    def fileno(self):
        return self.epoll.fileno()

    def watch(self, child, token):
        try:
            file = os.pidfd_open(child.pid)
        except (AttributeError, OSError):
            threading.Thread(target=self.wait_for, args=(child, token), daemon=True).start()
            return
        self.watch_file(file, token)

    def watch_file(self, file, token):
        """Tells of this token once the file is readable, and closes the file."""
        self.by_file[file] = token
        self.epoll.register(file, select.EPOLLIN)

    def wait_for(self, child, token):
        os.waitid(os.P_PID, child.pid, os.WEXITED | os.WNOWAIT)
        self.of_threads.append(token)
        os.write(self.outer, b"!")

    def ended(self):
        """The tokens of processes that have ended and aren't reaped yet."""
        found = []
        for file, _ in self.epoll.poll(0):
            if file == self.inner:
                os.read(self.inner, 4096)
            else:
                self.epoll.unregister(file)
                os.close(file)
                found.append(self.by_file.pop(file))
        while self.of_threads:
            found.append(self.of_threads.popleft())
        return found

    def close(self):
        for file in [*self.by_file, self.inner, self.outer]:
            os.close(file)
        self.epoll.close()


def signal_group(child, number):
    """Signals all processes of a unit's group, whose leader isn't reaped yet."""
    try:
        os.killpg(child.pid, number)
    except (ProcessLookupError, PermissionError):
        pass


def has_group(number):
    """Whether a process group has a process left that isn't only waiting to be reaped by its new parent."""
    try:
        os.killpg(number, 0)
    except ProcessLookupError:
        return False
    except PermissionError:
        pass
    for name in filter(str.isdigit, os.listdir("/proc")):
        try:
            with open(f"/proc/{name}/stat", encoding="utf-8", errors="replace") as it:
                words = it.read().rsplit(")", 1)[1].split()
        except (OSError, IndexError):
            continue
        if words[2] == str(number) and words[0] not in "ZX":
            return True
    return False


class Running:
    """A unit's process here, and when it is killed where it doesn't end."""

    __slots__ = ("unit", "child", "kill_at", "place")

    def __init__(self, unit, child, place):
        self.unit, self.child, self.place, self.kill_at = unit, child, place, None


class Local(Engine):
    """Units as processes of this machine, `seats` at a time. Each is the leader of a group of its own, which ends with it: what it
    leaves running there is killed. Its output is in unit.output + ".out", what it says on standard error in ".err" (none if empty)."""

    def __init__(self, seats, grace=5.0, environment=None, keep_open=()):
        self.seats, self.grace = seats, grace
        self.base = dict(os.environ if environment is None else environment)
        self.keep_open = keep_open
        self.ends = Ends()
        self.running = {}               # by unit
        self.failed = []                # that couldn't be started
        self.emptying = []              # ended, but a process that they left was only just killed
        self.free = list(range(seats))

    def begin(self, unit):
        place = min(self.free)
        unit.seat = f"local/{place}"
        self.spawn(unit, place, unit.words(), dict(unit.environment(), PFX_SEAT=str(place)))

    def spawn(self, unit, place, words, told, stdin=subprocess.DEVNULL):
        try:
            with open(unit.output + ".out", "wb") as out, open(unit.output + ".err", "wb") as err:
                child = subprocess.Popen(words, stdin=stdin, stdout=out, stderr=err, env={**self.base, **told},
                                         start_new_session=True, pass_fds=self.keep_open)
        except (OSError, ValueError) as error:
            self.failed.append(End(unit, 127, "", str(error)))
            self.wake()
            return None
        self.free.remove(place)
        self.running[unit] = Running(unit, child, place)
        self.ends.watch(child, unit)
        return child

    def wake(self):
        os.write(self.ends.outer, b"!")

    def poll(self):
        now = time.monotonic()
        found, self.failed = self.failed, []
        for token in self.ends.ended():
            self.noticed(token, now)
        still = []
        for each, end in self.emptying:
            if each.kill_at > now and has_group(each.child.pid):
                still.append((each, end))
            else:
                self.free.append(each.place)
                found.append(end)
        self.emptying = still
        for each in self.running.values():
            if each.kill_at is not None and each.kill_at <= now:
                each.kill_at = now + self.grace
                signal_group(each.child, signal.SIGKILL)
        return found

    def noticed(self, unit, now):
        self.reap(unit, now)

    def reap(self, unit, now):
        """Takes a unit's status. Its seat is free once nothing of its group is left."""
        each = self.running.pop(unit)
        signal_group(each.child, signal.SIGKILL)
        status = each.child.wait()
        if each.child.stdin:
            each.child.stdin.close()
        each.kill_at = now + self.grace
        try:
            if os.path.getsize(unit.output + ".err") == 0:
                os.unlink(unit.output + ".err")
        except OSError:
            pass
        self.emptying.append((each, End(unit, status, last_line(unit.output + ".out") if status == 0 else "")))

    def cancel(self, unit):
        each = self.running.get(unit)
        if each is not None and each.kill_at is None:
            signal_group(each.child, signal.SIGTERM)
            each.kill_at = time.monotonic() + self.grace

    def fileno(self):
        return self.ends.fileno()

    def due(self):
        if self.emptying:
            return 0.001
        moments = [each.kill_at for each in self.running.values() if each.kill_at is not None]
        return max(0.0, min(moments) - time.monotonic()) if moments else None

    def close(self):
        self.ends.close()


class Calls(Engine):
    """Units as calls of a function in this process, `seats` at a time, each in a thread: function(task, number, text) gives the next
    text. One that raises has failed. It can't be cancelled: its seat is free once it returns."""

    def __init__(self, function, seats):
        self.function, self.seats = function, seats
        self.done = collections.deque()
        self.inner, self.outer = os.pipe()
        os.set_blocking(self.inner, False)

    def begin(self, unit):
        unit.seat = "call"
        threading.Thread(target=self.run, args=(unit,), daemon=True).start()

    def run(self, unit):
        try:
            end = End(unit, 0, self.function(unit.task, unit.number, unit.text) or "")
        except Exception as error:          # whatever a unit raises is its failure
            end = End(unit, 1, "", repr(error))
        self.done.append(end)
        os.write(self.outer, b"!")

    def poll(self):
        try:
            os.read(self.inner, 4096)
        except BlockingIOError:
            pass
        return [self.done.popleft() for _ in range(len(self.done))]

    def cancel(self, unit):
        pass

    def fileno(self):
        return self.inner
