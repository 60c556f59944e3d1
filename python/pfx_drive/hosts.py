"""Seats on other machines, by the system's ssh. One connection a host is kept open (ControlMaster), and units go through it.

A unit there is ended where its input from here ends: when the drive cancels it or is killed, or when sshd finds the connection lost. A
unit whose connection is lost is LOST: it is begun elsewhere, and may run on for a while where it was."""
import os
import shlex
import shutil
import subprocess
import tempfile
import time

from .engines import LOST, Local, last_line

SSH_FAILED = 255            # ssh's own status; a unit that ends so there is told as 254
FIRST_PAUSE, LONGEST_PAUSE = 1.0, 30.0      # before a host that was lost is tried again
HERE = "local"

# What a host runs for a unit: the unit as a group of its own, in the folder of the drive where there is one of that name ($1).
THERE = """cd -- "$1" 2>/dev/null
shift
exec 3<&0 </dev/null
setsid "$@" 3<&- &
unit=$!
{ cat <&3; kill -TERM -$unit || kill -TERM $unit; sleep %g; kill -KILL -$unit; } >/dev/null 2>&1 &
watch=$!
exec 3<&-
wait $unit
status=$?
{ kill $watch; kill -KILL -$unit; } 2>/dev/null
[ $status -ne 255 ] || status=254
exit $status
"""


def parse(words):
    """Hosts and how many seats each has, of words such as a or b*4."""
    found = {}
    for word in words:
        name, star, count = str(word).strip().partition("*")
        if not name or name.startswith("-") or star and not (count.isdigit() and int(count) > 0):
            raise ValueError(f"a host is NAME or NAME*SEATS, not {word!r}")
        found[name] = found.get(name, 0) + (int(count) if star else 1)
    return list(found.items())


class Host:
    """A machine, and the connection to it."""

    def __init__(self, name, seats, control):
        self.name, self.seats, self.control = name, seats, control
        self.is_up = name == HERE
        self.master = None              # the process that has the connection
        self.lost = 0                   # how often in a row it was lost or not reached
        self.not_before = 0.0           # when it is tried again


class Hosts(Local):
    """Units on hosts; the one named `local` is this machine, without ssh. A place of `free` is a host and a number on it."""

    def __init__(self, places, grace, environment, keep_open, ssh=None):
        super().__init__(0, grace, environment, keep_open)
        self.ssh = ssh or shlex.split(os.environ.get("PFX_SSH", "ssh"))
        self.room = tempfile.mkdtemp(prefix="pfx-drive-")
        self.hosts = [Host(name, seats, f"{self.room}/{at}") for at, (name, seats) in enumerate(places)]
        self.free = [(host, number) for host in self.hosts for number in range(host.seats)]
        self.connect()

    @property
    def seats(self):
        return sum(host.seats for host in self.hosts if host.is_up)

    @seats.setter
    def seats(self, _):
        pass                            # the hosts that are up tell it

    def words(self, host, *more):
        return [*self.ssh, "-o", "BatchMode=yes", "-o", "ConnectTimeout=15", "-o", "ServerAliveInterval=5", "-o", "ServerAliveCountMax=3",
                "-S", host.control, *more]

    # --- connections

    def connect(self):
        """Begins a connection to each host that has none. It lasts as long as the drive: the `cat` there ends with its input."""
        now = time.monotonic()
        for host in self.hosts:
            if host.name == HERE or host.master or host.not_before > now:
                continue
            if os.path.exists(host.control):
                os.unlink(host.control)
            with open(host.control + ".err", "wb") as err:
                host.master = subprocess.Popen(self.words(host, "-M", host.name, "echo up; exec cat"), stdin=subprocess.PIPE,
                                               stdout=subprocess.PIPE, stderr=err, bufsize=0, env=self.base, start_new_session=True)
            self.ends.watch(host.master, host)
            self.ends.watch_file(os.dup(host.master.stdout.fileno()), (host, host.master))

    def came_up(self, host, master):
        """The connection's first word has come, or its end."""
        if master is host.master and os.read(master.stdout.fileno(), 4096):
            host.is_up, host.lost = True, 0
            self.tell({"event": "host", "host": host.name, "what": f"is connected, {host.seats} seats"})

    def went_down(self, host):
        """The connection has ended: its units are lost, and the host is tried again after a growing pause."""
        host.master.wait()
        host.master.stdin.close()
        host.master.stdout.close()
        was_up, host.master, host.is_up = host.is_up, None, False
        pause = min(FIRST_PAUSE * 2 ** min(host.lost, 10), LONGEST_PAUSE)
        host.lost, host.not_before = host.lost + 1, time.monotonic() + pause
        why = last_line(host.control + ".err")
        self.tell({"event": "host", "host": host.name, "what": ("was lost" if was_up else "isn't reached") + (f": {why}" if why else "")})
        for each in self.running.values():
            if each.place[0] is host:
                each.kill_at = 0.0

    # --- units

    def begin(self, unit):
        free = [place for place in self.free if place[0].is_up]
        of_host = {host: sum(place[0] is host for place in free) / host.seats for host in self.hosts}
        host, number = place = min(free, key=lambda place: (-of_host[place[0]], place[1]))
        unit.seat = f"{host.name}/{number}"
        told = dict(unit.environment(), PFX_SEAT=str(number))
        if host.name == HERE:
            self.spawn(unit, place, unit.words(), told)
            return
        there = ["env", *(f"{key}={value}" for key, value in told.items()), *unit.words()]
        line = shlex.join(["sh", "-c", THERE % self.grace, "pfx-drive", os.getcwd(), *there])
        self.spawn(unit, place, self.words(host, "-o", "ControlMaster=no", host.name, line), {}, subprocess.PIPE)

    def noticed(self, token, now):
        if isinstance(token, Host):
            self.went_down(token)
        elif isinstance(token, tuple):
            self.came_up(*token)
        else:
            self.reap(token, now)

    def poll(self):
        found = [self.told(end) for end in super().poll()]
        self.connect()
        return found

    def told(self, end):
        """What ssh itself couldn't do, or was killed in, tells nothing of the unit."""
        if end.unit.seat.startswith(HERE + "/") or 0 <= end.status < SSH_FAILED:
            return end
        return end._replace(status=LOST, why=last_line(end.unit.output + ".err"))

    def cancel(self, unit):
        """There, by the end of its input; here, by force where that doesn't end it in time."""
        each = self.running.get(unit)
        if each is None or each.child.stdin is None:
            super().cancel(unit)
        elif each.kill_at is None:
            each.child.stdin.close()
            each.kill_at = time.monotonic() + self.grace + 2

    def due(self):
        pauses = [max(0.0, host.not_before - time.monotonic()) for host in self.hosts if host.name != HERE and not host.master]
        local = super().due()
        return min(pauses + ([local] if local is not None else []), default=None)

    def close(self):
        for host in self.hosts:
            if host.master:
                host.master.stdin.close()
                try:
                    host.master.wait(self.grace)
                except subprocess.TimeoutExpired:
                    host.master.kill()
                    host.master.wait()
                host.master.stdout.close()
        super().close()
        shutil.rmtree(self.room, ignore_errors=True)
