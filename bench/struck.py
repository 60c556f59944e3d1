"""What the benches share that strike a drive over several machines: units that note when they ran, and strikes at random."""
import collections
import os
import random
import shutil
import signal
import subprocess
import sys
import tempfile
import time

from nets import TOP, kit


def write_unit(room, log, during):
    """A unit of `kills` whose log is that of the trial, on whatever machine it runs, and which notes each run's beginning and end."""
    kit.write_files(room, "", f'echo "b $1 $2 $$ $(date +%s%N)" >>"$LOG.spans"\n{during}\necho "e $1 $2 $$ $(date +%s%N)" >>"$LOG.spans"')
    with open(f"{room}/unit") as it:
        text = it.read()
    with open(f"{room}/unit", "w") as it:
        it.write(text.replace("#!/bin/sh\n", f"#!/bin/sh\nLOG={log}\n", 1))


def spans_of(log):
    """How many units ended in more than one run, and how many of these in two that were there at the same time."""
    begun, ended = {}, collections.defaultdict(list)
    with open(log) as it:
        for line in it:
            what, task, number, pid, at = line.split()
            if what == "b":
                begun[task, number, pid] = int(at)
            else:
                ended[task, number].append((begun[task, number, pid], int(at)))
    twice = [sorted(runs) for runs in ended.values() if len(runs) > 1]
    return len(twice), sum(any(one[1] > two[0] for one, two in zip(runs, runs[1:])) for runs in twice)


class Trial:
    """A drive over machines, struck again and again; at the end all that was granted is recorded."""

    def __init__(self, name, during):
        self.name, self.program = name, os.path.abspath(sys.argv[1])
        self.strikes = int(sys.argv[2]) if len(sys.argv) > 2 else 30
        self.chance = random.Random(int(sys.argv[3]) if len(sys.argv) > 3 else 1)
        self.room = tempfile.mkdtemp(prefix=f"{name}-")
        os.chmod(self.room, 0o755)
        self.store, self.log = f"{self.room}/store", f"{self.room}/log"
        write_unit(self.room, self.log, during)
        self.environment = dict(os.environ, PFX=self.program, PYTHONPATH=f"{TOP}/python", PYTHONDONTWRITEBYTECODE="1")
        self.done, self.out = collections.Counter(), {}

    def words(self, *more):
        return ["nsenter", "--net=/run/netns/pfx-ctl", sys.executable, "-m", "pfx_drive", f"{self.room}/set.toml", self.store, *self.seats, *more,
                "--", f"{self.room}/unit"]

    def start(self):
        with open(f"{self.room}/said", "a") as it:
            return subprocess.Popen(self.words(), env=self.environment, stderr=it)

    def bring_back(self, always):
        for host, (at, back) in list(self.out.items()):
            if always or at < time.monotonic():
                back()
                del self.out[host]

    def strike(self, nets, hosts, start_host, drive, down):
        """One strike at the drive, its pfx, a machine or its link; the drive that runs after it."""
        self.bring_back(False)
        free = [host for host in hosts if host not in self.out]
        what = self.chance.choice(["driver", "pfx", "both", "link", "host"])
        if what in ("link", "host"):
            if len(free) <= len(hosts) - down:
                return drive
            host = self.chance.choice(free)
            if what == "link":
                nets.link(host, "down")
                self.out[host] = (time.monotonic() + self.chance.uniform(1, 25), lambda: nets.link(host, "up"))
            else:
                nets.kill(host)
                self.out[host] = (time.monotonic() + self.chance.uniform(0.5, 12), lambda: start_host(host))
        else:
            if what != "driver" and not any([kit.kill(pid) for pid in kit.children(drive.pid, "run")]):
                return drive
            if what != "pfx":
                kit.kill(drive.pid)
                drive.wait()
                drive = self.start()
        self.done[what] += 1
        return drive

    def run(self, nets, hosts, start_host, seats, pause, down):
        """Strikes and then an end in order; prints what was seen."""
        self.seats = seats
        subprocess.run([self.program, "init", f"{self.room}/set.toml", self.store], check=True, stdout=subprocess.DEVNULL)
        looks, begun, drive = kit.Looks(self.program, self.store), time.monotonic(), self.start()
        while sum(self.done.values()) < self.strikes:
            time.sleep(self.chance.uniform(*pause))
            if drive.poll() is not None:
                sys.exit(f"{self.name}: it ended with {drive.returncode}: see {self.room}/said")
            drive = self.strike(nets, hosts, start_host, drive, down)
        self.bring_back(True)
        drive.send_signal(signal.SIGTERM)
        drive.wait(180)
        end = looks.look()[0] + 6
        with open(f"{self.room}/said", "a") as it:
            subprocess.run(self.words("--slots", str(end)), env=self.environment, check=True, stderr=it, timeout=300)
        slot, granted, recorded = looks.look()
        looks.must(slot == end and granted == recorded, f"at slot {slot} of {end}: granted {granted}, recorded {recorded}")
        runs = kit.runs_of(self.log)
        looks.must(len(runs) == sum(recorded), f"{len(runs)} units were begun, and {sum(recorded)} recorded")
        ended, twice = spans_of(f"{self.log}.spans")
        shutil.rmtree(self.room)
        counts = ", ".join(f"{what} {count}" for what, count in sorted(self.done.items()))
        print(f"{self.name}: {self.strikes} strikes ({counts}), {slot} slots, {sum(recorded)} units, each recorded once and in order; "
              f"{sum(count > 1 for count in runs.values())} begun more than once, {ended} ended more than once, {twice} of them at the same time; "
              f"{time.monotonic() - begun:.0f} seconds")
