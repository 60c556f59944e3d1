"""The folder STORE.drive beside a store: names and shares, the two locks, the socket, and the outputs of units.

A unit outlives a driver that is killed. So each carries a mark in its environment and an open file on which there is a lock, both
inherited by whatever it starts. The next driver looks for processes with the mark or with that file open, ends them, and begins only
once the lock is its own: a lock that the kernel keeps for as long as one process has the file."""
import fcntl
import os
import select
import signal
import time

MARK = "PFX_DRIVE_ID"
HIGH = 300              # a shell's script names files below 256


class Mismatch(Exception):
    """The store isn't this set's, or another driver has it: nothing was begun."""


def synced(path):
    """Has a folder's entries on the disk."""
    there = os.open(path, os.O_RDONLY)
    os.fsync(there)
    os.close(there)


def write_whole(path, text):
    """Puts a file in place so that a kill or a power cut leaves the old one or this."""
    draft = f"{path}.{os.getpid()}"
    with open(draft, "w", encoding="utf-8") as it:
        it.write(text)
        it.flush()
        os.fsync(it.fileno())
    os.rename(draft, path)
    synced(os.path.dirname(path))


def lock(path):
    """An open file with a lock of its own; None where another process has it."""
    file = os.open(path, os.O_RDWR | os.O_CREAT | os.O_CLOEXEC, 0o644)
    try:
        fcntl.flock(file, fcntl.LOCK_EX | fcntl.LOCK_NB)
    except BlockingIOError:
        os.close(file)
        return None
    return file


def raised(file):
    """The same open file under a number so high that no shell's redirections take it."""
    if file is None:
        return None
    try:
        high = fcntl.fcntl(file, fcntl.F_DUPFD_CLOEXEC, HIGH)
    except OSError:
        return file
    os.close(file)
    return high


class Place:
    """The folder beside a store, which one driver has at a time."""

    def __init__(self, store):
        self.store = store
        self.path = os.path.abspath(store) + ".drive"
        self.driver = self.units = None
        self.id = ""
        self.start, self.differs = 0, None      # the slot from which on the weights of the names are in force; what the set has otherwise
        self.folders = set()

    def file(self, name):
        return os.path.join(self.path, name)

    def take(self):
        """Has the folder for this driver alone."""
        os.makedirs(self.path, exist_ok=True)
        self.driver = lock(self.file("driver"))
        if self.driver is None:
            raise Mismatch(f"another pfx-drive has {self.store}, process {self.driver_before()}: `pfx-drive status {self.store}` shows it")
        os.ftruncate(self.driver, 0)
        os.pwrite(self.driver, f"{os.getpid()}\n".encode(), 0)

    def driver_before(self):
        try:
            with open(self.file("driver"), encoding="ascii") as it:
                return it.read().strip() or "unknown"
        except OSError:
            return "unknown"

    def named(self):
        """The tasks that the file of names has, as (name, e, p)."""
        try:
            with open(self.file("names"), encoding="utf-8") as it:
                lines = [line.split() for line in it.read().splitlines()[1:]]
        except FileNotFoundError:
            raise Mismatch(f"there is no {self.file('names')}: no pfx-drive has had {self.store}") from None
        return [(name, *map(int, weight.split("/"))) for name, weight in lines]

    def check_names(self, tasks):
        """Compares names with those of the first start, or keeps them with the weights. Refuses by the first task that differs. Other weights
        are refused once the store tells that it wasn't given new ones."""
        try:
            with open(self.file("names"), encoding="utf-8") as it:
                head, *lines = it.read().splitlines()
        except FileNotFoundError:
            self.id = os.urandom(16).hex()
            self.write_names(tasks)
            return
        words = head.split()
        if words[:2] != ["pfx-drive", "1"] or len(words) not in (3, 4):
            raise Mismatch(f"{self.file('names')} isn't a file of this pfx-drive: {head}")
        self.id, self.start = words[2], int(words[3]) if len(words) > 3 else 0
        for place in range(max(len(tasks), len(lines))):
            here = f"{tasks[place].name} {tasks[place].e}/{tasks[place].p}" if place < len(tasks) else "none"
            there = lines[place] if place < len(lines) else "none"
            why = f"task {place} of the set is {here}, and that of {self.store} is {there} by {self.file('names')}"
            if place >= min(len(tasks), len(lines)) or tasks[place].name != there.split()[0]:
                raise Mismatch(why)
            if here != there and not self.differs:
                self.differs = why

    def write_names(self, tasks):
        since = f" {self.start}" if self.start else ""
        weights = "".join(f"{task.name} {task.e}/{task.p}\n" for task in tasks)
        write_whole(self.file("names"), f"pfx-drive 1 {self.id}{since}\n{weights}")

    def check_weights(self, start):
        """Refuses a set of other weights than those of the first start, unless the store was given new ones since."""
        if self.differs and start == self.start:
            raise Mismatch(self.differs)

    def keep_weights(self, tasks, start):
        """Keeps the weights that the store was given at a slot, once they are known to be the set's."""
        if start != self.start:
            self.start, self.differs = start, None
            self.write_names(tasks)

    def mark(self):
        return f"{MARK}={self.id}".encode()

    def end_left(self, grace, tell):
        """Ends what units of a killed driver have left running, and takes their lock. Tells of each process."""
        told, begun = set(), time.monotonic()
        while True:
            if self.units is None:
                self.units = raised(lock(self.file("units")))
            left = self.left_behind()
            if not left and self.units is not None:
                return
            number = signal.SIGTERM if time.monotonic() < begun + grace else signal.SIGKILL
            for pid, start in left:
                if (pid, start, number) in told:
                    continue
                told.add((pid, start, number))
                tell({"event": "left", "process": pid, "signal": number.name})
                try:
                    os.kill(pid, number)
                except (ProcessLookupError, PermissionError):
                    pass
            wait_for_end([pid for pid, _ in left], 0.05 if left else 0.01)

    def left_behind(self):
        """The processes with our mark, and, while the lock isn't ours, those that have its file open: each with its start time."""
        found = set()
        lock_file = None if self.units is not None else os.stat(self.file("units"))
        for name in os.listdir("/proc"):
            if name.isdigit() and int(name) != os.getpid() and (self.has_mark(name) or lock_file and has_open(name, lock_file)):
                start = start_of(name)
                if start is not None:
                    found.add((int(name), start))
        return found

    def has_mark(self, name):
        try:
            with open(f"/proc/{name}/environ", "rb") as it:
                return self.mark() in it.read().split(b"\0")
        except OSError:
            return False

    def output(self, task, number):
        """Where the output of a unit goes, without its ending."""
        folder = os.path.join(self.path, "out", task)
        if folder not in self.folders:
            os.makedirs(folder, exist_ok=True)
            self.folders.add(folder)
        return os.path.join(folder, str(number))

    def release(self):
        for file in (self.units, self.driver):
            if file is not None:
                os.close(file)
        self.units = self.driver = None


def has_open(name, wanted):
    """Whether a process has this file open."""
    try:
        files = os.listdir(f"/proc/{name}/fd")
    except OSError:
        return False
    for file in files:
        try:
            there = os.stat(f"/proc/{name}/fd/{file}")
        except OSError:
            continue
        if (there.st_dev, there.st_ino) == (wanted.st_dev, wanted.st_ino):
            return True
    return False


def start_of(name):
    """When a process began, in ticks; None where it has ended."""
    try:
        with open(f"/proc/{name}/stat", encoding="utf-8", errors="replace") as it:
            words = it.read().rsplit(")", 1)[1].split()
    except (OSError, IndexError):
        return None
    return None if words[0] in "ZX" else words[19]


def wait_for_end(pids, seconds):
    """Waits until one of these processes has ended, or so long."""
    files = []
    for pid in pids[:64]:
        try:
            files.append(os.pidfd_open(pid))
        except (AttributeError, OSError):
            pass
    select.select(files, [], [], seconds)
    for file in files:
        os.close(file)
