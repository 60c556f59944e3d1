"""Units as jobs of an existing SLURM, submitted by sbatch. A job's result is one file, made by one link, in a folder that nodes and drive share.

What SLURM may do, and what is done about it: it may hold a job whose launch failed for ever, or put it off by minutes: that job is cancelled, and the
unit submitted again. It may go on showing the job of a node that was lost as running: the unit's timeout is counted by SLURM's clock, which restarts of the
drive don't renew. A lost node's job may still run: then a unit runs twice, and the first result is taken. Jobs aren't requeued, so one party alone repeats
units; the name of a job is that of its unit, and `singleton` lets one of a name run at a time."""
import hashlib
import os
import shlex
import subprocess
import time

from .engines import LOST, End, Ends, Engine
from .place import MARK

LOOK = 1.0                  # seconds between two looks at the queue
GLANCE = 0.1                # and between two at the results
MISSES = 3                  # looks in which a job without a result isn't in the queue, until it counts as lost
SOON = 5.0                  # seconds before what SLURM refused is submitted again

JOB = """#!/bin/sh
cd -- %(folder)s || exit 126
out=%(output)s.$SLURM_JOB_ID
%(words)s </dev/null >"$out.out" 2>"$out.err"
status=$?
draft=%(result)s.$SLURM_JOB_ID
{ echo "$SLURM_JOB_ID $status"; grep -v '^[[:space:]]*$' "$out.out" | tail -n 1; } >"$draft"
sync "$draft" 2>/dev/null
ln "$draft" %(result)s 2>/dev/null
rm -f "$draft"
"""


def seconds_of(text):
    """1-02:03:04 or 3:04, as squeue prints a time."""
    days, _, clock = text.rpartition("-")
    found = 0
    for part in clock.split(":"):
        found = found * 60 + (int(part) if part.isdigit() else 0)
    return found + 86400 * (int(days) if days.isdigit() else 0)


class Job:
    """A unit's job: its name, where its result comes, and what was seen of it."""

    def __init__(self, unit, name, result):
        self.unit, self.name, self.result = unit, name, result
        self.misses = 0
        self.is_cancelled = False
        self.again_at = None            # when it is submitted again


class Slurm(Engine):
    """Up to `seats` jobs at a time."""

    keeps_time = True                   # a job waits in the queue before its time begins

    def __init__(self, seats, environment, grace):
        self.seats, self.base, self.grace = seats, environment, grace
        self.prefix = f"pfx-{environment[MARK][:8]}-"
        self.ends = Ends()
        self.jobs = {}                  # by unit
        self.looking = None
        self.looked = 0.0
        self.queued, self.kept = {}, {}
        self.take_queue(self.call("squeue", *self.LIST).communicate()[0])

    LIST = ("--me", "-h", "-o", "%j|%i|%M|%r")

    def call(self, *words, text=None):
        return subprocess.Popen(words, env=self.base, stdin=subprocess.PIPE if text else subprocess.DEVNULL, stdout=subprocess.PIPE,
                                stderr=subprocess.PIPE, text=True, start_new_session=True)

    def take_queue(self, said):
        """Our jobs in the queue: by name the numbers, the time used and SLURM's reason."""
        self.queued = {}
        for line in said.splitlines():
            name, number, used, why = line.split("|", 3)
            if name.startswith(self.prefix):
                self.queued.setdefault(name, []).append((number, seconds_of(used), why))

    # --- begin, poll, cancel

    def begin(self, unit):
        text = hashlib.sha256(unit.text.encode()).hexdigest()[:6]
        name = f"{self.prefix}{unit.task}-{unit.key}-{text}"
        unit.seat = "slurm"
        if unit.task in self.kept:      # the answer before this unit's is recorded by now
            os.unlink(self.kept.pop(unit.task))
        self.jobs[unit] = job = Job(unit, name, f"{unit.output}.{text}.result")
        if name not in self.queued and not os.path.exists(job.result):
            self.submit(job)

    def submit(self, job):
        unit = job.unit
        told = ["env", *(f"{key}={value}" for key, value in unit.environment().items()), *unit.words()]
        script = JOB % {"folder": shlex.quote(os.getcwd()), "output": shlex.quote(unit.output), "words": shlex.join(told), "result": shlex.quote(job.result)}
        job.misses, job.again_at = 0, None
        child = self.call("sbatch", "-Q", "-J", job.name, "--no-requeue", "--dependency=singleton", "-o", "/dev/null", text=script)
        child.stdin.write(script)
        child.stdin.close()
        self.ends.watch(child, ("submitted", child, job))

    def poll(self):
        now = time.monotonic()
        for what, child, job in self.ends.ended():
            said, fault = child.stdout.read(), child.stderr.read()
            child.stdout.close()
            child.stderr.close()
            failed = child.wait() != 0
            if what == "looked":
                self.looking = None
                if not failed:
                    self.take_queue(said)
                    self.look_after(now)
            elif failed and job.unit in self.jobs:
                self.tell({"event": "host", "host": "slurm", "what": f"refuses a job: {fault.strip()}"})
                job.again_at = now + SOON
        if self.jobs and self.looking is None and now >= self.looked + LOOK:
            self.looked, self.looking = now, self.call("squeue", *self.LIST)
            self.ends.watch(self.looking, ("looked", self.looking, None))
        return [self.over(job) for job in list(self.jobs.values()) if self.has_ended(job, now)]

    def has_ended(self, job, now):
        if job.again_at is not None and job.again_at <= now:
            self.submit(job)
        return os.path.exists(job.result) or job.is_cancelled and job.misses > 0

    def over(self, job):
        """The end of a unit, by its result; what is left of other runs of it is cancelled."""
        unit = job.unit
        del self.jobs[unit]
        try:
            with open(job.result, encoding="utf-8", errors="replace") as it:
                head, *text = it.read().splitlines()
        except OSError:
            return End(unit, LOST if not unit.is_late else -15)
        number, status = head.split()
        for ending in ("out", "err"):
            try:
                os.replace(f"{unit.output}.{number}.{ending}", f"{unit.output}.{ending}")
            except OSError:
                pass
        if status == "0":
            self.kept[unit.task] = job.result
        else:
            os.unlink(job.result)
        others = [other for other, _, _ in self.queued.get(job.name, []) if other != number]
        self.cancel_jobs(others)
        return End(unit, int(status), text[0].strip() if text and status == "0" else "")

    def look_after(self, now):
        """What the queue tells of the jobs under way."""
        for job in self.jobs.values():
            there = self.queued.get(job.name, [])
            job.misses = 0 if there else job.misses + 1
            stuck = [number for number, _, why in there if "held" in why.lower() or why == "BeginTime"]
            late = [number for number, used, _ in there if job.unit.timeout and used > job.unit.timeout]
            if late and not job.is_cancelled:
                job.unit.is_late = job.is_cancelled = True
            if stuck or late:
                self.cancel_jobs(stuck + late)
            is_gone = job.misses >= MISSES or stuck and len(stuck) == len(there)
            if is_gone and not job.is_cancelled and job.again_at is None and not os.path.exists(job.result):
                self.tell({"event": "lost", "task": job.unit.task, "number": job.unit.number, "seat": "slurm", "why": "its job is held" if stuck else ""})
                job.again_at = now

    def cancel_jobs(self, numbers):
        if numbers:
            child = self.call("scancel", *numbers)
            self.ends.watch(child, ("cancelled", child, Job(None, "", "")))

    def cancel(self, unit):
        job = self.jobs.get(unit)
        if job and not job.is_cancelled:
            job.is_cancelled, job.again_at = True, None
            child = self.call("scancel", "--me", f"--name={job.name}")
            self.ends.watch(child, ("cancelled", child, Job(None, "", "")))

    def fileno(self):
        return self.ends.fileno()

    def due(self):
        return GLANCE if self.jobs else None

    def close(self):
        self.ends.close()
