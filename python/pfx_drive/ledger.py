"""What is granted and what is answered, and the rule that says when to ask for a slot. It knows no clock and no file.

Unit K of a task is *owed* while recorded < K <= granted. New weights begin both at 0 again. At every moment, stops included: with w the weight of a task that has work,
t the slots granted and d its units recorded, w*t - 1 - O < d < w*t + 1, because a slot is asked for only while each such task owes
fewer than O units, and pfx grants each task less than one slot from its share. A task that has ended, is parked, or has said that it has
nothing to do now has no work: its places pass. Where it has work again, those that are too many are recorded with the text as it is."""

END = "end"                 # a text that begins so ends its task
FAILED = "failed:"          # and one that begins so parks it: failed:CODE:TEXT, with the text before
LONGEST = 94                # characters of a unit's text, so that failed:CODE: and the text fit into 106
MOST = 64                   # slots of one record
UNSEEN = set('",\\')


def is_text(text):
    """Whether pfx can record it: visible ASCII without quote, comma and backslash, and not too long."""
    return len(text) <= LONGEST and all("!" <= it <= "~" and it not in UNSEEN for it in text)


class Task:
    """One task: what pfx has of it, and the unit that is under way."""

    def __init__(self, place, name, e, p):
        self.place, self.name, self.e, self.p = place, name, e, p
        self.granted = self.recorded = 0
        self.text = ""              # of the last recorded answer
        self.kind = None            # None or "own"; another kind is pfx's own job, and not driven
        self.unit = None            # under way at an engine
        self.answer = None          # (number, text), sent to pfx and not yet recorded
        self.passing = 0            # numbers up to this one are recorded with the text as it is, and not run
        self.tries = self.waits = 0  # failed tries and pauses of the next unit
        self.not_before = 0.0       # its moment, where it is tried again
        self.is_idle = False        # it has said that it has nothing to do until then
        self.failures = 0           # of all units, since the driver began
        self.last_failure = ""
        self.seconds = 0.0          # that units took whose answers are recorded, since the driver began
        self.answered_here = 0

    @property
    def is_driven(self):
        return self.kind in (None, "own")

    @property
    def has_ended(self):
        return self.text.startswith(END)

    @property
    def is_parked(self):
        return self.text.startswith(FAILED)

    @property
    def has_work(self):
        return self.is_driven and not self.text.startswith((END, FAILED))

    @property
    def owed(self):
        return self.granted - self.recorded

    def due(self):
        """The slot by whose end the next unit should have run."""
        return (self.recorded + 1) * self.p / self.e

    def lag(self, slots):
        """What the task is due of so many slots less what it was granted, in parts of its period."""
        return self.e * slots - self.p * self.granted

    def is_ready(self, now):
        return self.recorded < self.granted and self.unit is None and self.answer is None and self.not_before <= now and self.has_work

    def state(self, now):
        """A word for people."""
        if not self.is_driven:
            return "other"
        if self.unit:
            return "runs"
        if self.answer:
            return "records"
        if self.has_ended:
            return "ended"
        if self.is_parked:
            return "parked"
        if self.owed == 0 and not self.is_idle:
            return "rests"
        return ("idle" if self.is_idle else "pauses") if self.not_before > now else "waits"


class Ledger:
    """The tasks and the slot. `owe` is O, the units that a task may owe when a slot is asked for, plus one."""

    def __init__(self, tasks, owe=4, last_slot=None):
        self.tasks, self.owe, self.last_slot = tasks, owe, last_slot
        self.slot = self.number = 0
        self.start = 0              # the slot from which on the weights are in force

    def grant(self, row):
        """A slot was granted to these places, those of idle tasks among them."""
        self.slot += 1
        for place in row:
            if place < len(self.tasks):
                self.tasks[place].granted += 1

    @property
    def slots_here(self):
        """How many slots were granted with these weights."""
        return self.slot - self.start

    def key(self, number):
        """The name of a task's unit: its number, and before it the slot at which the weights came into force, where they are new ones."""
        return f"{self.start}.{number}" if self.start else str(number)

    def slots_to_ask(self):
        """How many slots the rule allows to be asked for together: before each of them no task with work may owe O units.

        A task gets at most one place a slot, and never a whole one more than its share, so before the n-th of them it has
        at most min(granted + n - 1, ceil(w * (slot + n - 1))) places, where slots count from where the weights came into force."""
        most = MOST if self.last_slot is None else min(MOST, self.last_slot - self.slot)
        any_work = False
        for task in self.tasks:
            if not task.has_work or task.is_idle:
                continue
            any_work = True
            spare = self.owe - 1 - task.owed
            if spare < 0:
                return 0
            by_share = task.p * (task.recorded + self.owe - 1) // task.e - self.slots_here
            most = min(most, max(spare, by_share) + 1)
        return most if any_work else 0

    def kept(self):
        """How many units a task owes at most once it has work again."""
        return max(1, self.owe - 1)

    def next_task(self, now):
        """The task whose next unit is due first, of those that can begin one."""
        ready = [task for task in self.tasks if task.is_ready(now)]
        return min(ready, key=Task.due) if ready else None

    def is_over(self):
        """Nothing is under way, and no unit is owed that may be run or slot left to be asked for."""
        if any(task.unit or task.answer for task in self.tasks):
            return False
        working = [task for task in self.tasks if task.has_work]
        if not working:
            return True
        return self.last_slot is not None and self.slot >= self.last_slot and not any(task.owed for task in working)
