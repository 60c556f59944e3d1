"""The command pfx-drive: its words, what it prints, and its exit statuses."""
import argparse
import json
import os
import sys
import time

from . import __version__, look, sets
from .drive import STOPPED, Drive
from .ledger import LONGEST, is_text
from .place import Mismatch
from .store import Refused

USAGE = """pfx-drive SET STORE [options] [-- COMMAND [ARG..]]
       pfx-drive status STORE [--json]
       pfx-drive resume STORE NAME[=TEXT]"""

TOLD = """COMMAND is run as `COMMAND [ARG..] TASK NUMBER TEXT` for each granted unit. The last line of its output is the text from which the
task's next unit begins (no output: it stays as it is); one that begins with `end` ends the task. Exit status 0: done. 75: try again later.
Any other: failed. The exit status of pfx-drive is 0 once all tasks have ended, 1 where tasks are parked, 2 for words that it doesn't take,
3 where it was stopped, and that of pfx where pfx refuses the store. docs/DRIVE.md says more."""

KEYS = {"command": str, "retries": int, "timeout": (int, float), "start": str}
TOP_KEYS = {**KEYS, "seats": int, "log": str, "hosts": list, "slurm": bool, "owe": int, "slots": int, "keep": int, "pause": (int, float), "grace": (int, float), "task": dict}


class Wrong(Exception):
    """Words or a drive file that aren't understood."""


def named(word, what):
    name, equals, value = word.partition("=")
    if not equals:
        raise Wrong(f"{what} takes NAME=..., not {word}")
    return name, value


def parser():
    words = argparse.ArgumentParser(prog="pfx-drive", usage=USAGE, epilog=TOLD, formatter_class=argparse.RawDescriptionHelpFormatter)
    words.add_argument("set", metavar="SET", help="the set file: workers, tasks and their shares")
    words.add_argument("store", metavar="STORE", help="the store; made where there is none, with the folder STORE.drive beside it")
    words.add_argument("--task", action="append", default=[], metavar="NAME=COMMAND", help="a line for the shell, in place of COMMAND for this task: $1 $2 $3 are task, number and text")
    words.add_argument("--file", metavar="FILE", help="a drive file (TOML): a table [drive], and [drive.task.NAME] for a task's own command, timeout, retries and start")
    words.add_argument("--start", action="append", default=[], metavar="NAME=TEXT", help="the text from which a task's first unit begins")
    words.add_argument("--resume", action="append", default=[], metavar="NAME[=TEXT]", help="a parked or ended task goes on, from its text or from this one")
    words.add_argument("--seats", type=int, metavar="N", help="N units at a time on this machine (the set's workers)")
    words.add_argument("--hosts", metavar="A,B*4,C", help="seats on these hosts, by ssh; `local` is this machine")
    words.add_argument("--slurm", action="store_true", help="units as jobs of SLURM, as many at a time as --seats says")
    words.add_argument("--owe", type=int, metavar="O", help="a slot is asked for while each task with work owes fewer than O units (4)")
    words.add_argument("--slots", type=int, metavar="N", help="ends once the store has run N slots and their units are done")
    words.add_argument("--retries", type=int, metavar="N", help="a unit that fails is tried N times more (2), and then its task is parked")
    words.add_argument("--timeout", type=float, metavar="SECONDS", help="a unit that takes longer is ended and has failed (none)")
    words.add_argument("--pause", type=float, metavar="SECONDS", help="before a unit is tried again; doubled each time up to 60 (1)")
    words.add_argument("--grace", type=float, metavar="SECONDS", help="between SIGTERM and SIGKILL where a unit is ended (5)")
    words.add_argument("--keep", type=int, metavar="N", help="outputs of the last N recorded units of each task (all)")
    words.add_argument("--log", metavar="LOG", help="the log that keeps the store's whole history, as pfx run --log has it; made where there is none")
    words.add_argument("--http", metavar="[ADDRESS:]PORT", help="serves a page that shows it live, and /metrics (on 127.0.0.1 if no address is told)")
    words.add_argument("--json", action="store_true", help="prints what happens, an object a line")
    words.add_argument("--version", action="version", version=f"pfx-drive {__version__}")
    return words


def read_file(path):
    """The table [drive] of a drive file, each key known and of its type."""
    table = sets.load(path).get("drive")
    if not isinstance(table, dict):
        raise Wrong(f"{path} has no table [drive]")
    check_keys(path, "[drive]", table, TOP_KEYS)
    for name, own in table.get("task", {}).items():
        check_keys(path, f"[drive.task.{name}]", own, KEYS)
    return table


def check_keys(path, where, table, keys):
    for key, value in table.items():
        if key not in keys:
            raise Wrong(f"{path}: {where} knows no {key}: {', '.join(sorted(keys))}")
        if not isinstance(value, keys[key]) or isinstance(value, bool) and keys[key] is not bool:
            raise Wrong(f"{path}: {where} has {key} = {value!r}")


def options_of(given, command, table):
    """The options of the words and of the drive file; what stands in the words goes before."""
    tasks = {name: dict(own) for name, own in table.get("task", {}).items()}
    for key in ("task", "start"):
        for word in getattr(given, key):
            name, value = named(word, f"--{key}")
            tasks.setdefault(name, {})["command" if key == "task" else key] = value
    for name, own in tasks.items():
        if not is_text(own.get("start", "")):
            raise Wrong(f"the start of {name} isn't a text: at most {LONGEST} visible characters without quote, comma and backslash")
    options = {"command": command or table.get("command"), "tasks": tasks, "resume": resumed(given.resume)}
    for key in ("owe", "slots", "retries", "timeout", "pause", "grace", "keep"):
        value = getattr(given, key)
        value = table.get(key) if value is None else value
        if value is not None:
            if value < 0 or value == 0 and key in ("owe", "slots"):
                raise Wrong(f"--{key} is too small: {value}")
            options[key] = value
    return options


def resumed(words):
    found = {}
    for word in words:
        name, equals, text = word.partition("=")
        if not is_text(text):
            raise Wrong(f"--resume {name}: that isn't a text of at most {LONGEST} visible characters without quote, comma and backslash")
        found[name] = text if equals else None
    return found


def engine_of(given, table, grace):
    """The number of seats here, or what makes another engine."""
    seats = table.get("seats") if given.seats is None else given.seats
    hosts = given.hosts.split(",") if given.hosts else table.get("hosts")
    if seats is not None and seats < 1:
        raise Wrong("--seats is at least 1")
    if hosts and (given.slurm or table.get("slurm")):
        raise Wrong("--hosts or --slurm, not both")
    if hosts:
        from .hosts import Hosts, parse
        try:
            places = parse(hosts)
        except ValueError as error:
            raise Wrong(str(error)) from None
        return None, lambda environment, keep: Hosts(places, grace, environment, keep)
    if given.slurm or table.get("slurm"):
        from .slurm import Slurm
        return None, lambda environment, keep: Slurm(seats or 1, environment, grace)
    return seats, None


class Teller:
    """Prints what happens: objects on standard output with --json; otherwise what went wrong, and on a terminal how far it has come."""

    def __init__(self, is_json):
        self.is_json = is_json
        self.is_shown = not is_json and sys.stderr.isatty()
        self.drive, self.shown_at = None, 0.0

    def tell(self, event):
        if self.is_json:
            print(json.dumps(dict(event, at=round(time.time(), 3)), separators=(",", ":"), sort_keys=True), flush=True)
        else:
            text = self.text(event)
            if text:
                self.say(text)

    def text(self, event):
        what, unit = event["event"], f"{event.get('task')} {event.get('number')}"
        if what == "failed":
            how = {"time": "took too long", "text": "gave no text"}.get(event["code"], f"ended with {event['code']}")
            return f"{unit} {how}" + (f" ({event['why']})" if event["why"] else "") + \
                (", and is not tried again" if event["last"] else ", and is tried again") + f"; its output: {event['output']}.out and .err"
        if what == "parked":
            return f"{event['task']} is parked: `--resume {event['task']}` goes on with its next unit"
        if what == "left":
            return f"process {event['process']} of a driver before is ended by {event['signal']}"
        if what == "lost":
            return f"{unit} was lost on {event['seat']}, and is begun again" + (f": {event['why']}" if event["why"] else "")
        if what == "host":
            return f"{event['host']} {event['what']}"
        if what == "stopping":
            return "stopping: units under way are waited for; a second signal ends them"
        return None

    def say(self, text):
        self.clear()
        print(f"pfx-drive: {text}", file=sys.stderr, flush=True)

    def clear(self):
        if self.is_shown and self.shown_at:
            sys.stderr.write("\r\033[K")

    def every(self):
        if not self.is_shown or time.monotonic() < self.shown_at + 1:
            return
        self.shown_at = time.monotonic()
        sys.stderr.write("\r\033[K" + look.progress(self.drive))
        sys.stderr.flush()


def run(words):
    before, _, command = words if isinstance(words, tuple) else split(words)
    given = parser().parse_args(before)
    table = read_file(given.file) if given.file else {}
    options = options_of(given, command, table)
    teller = Teller(given.json)
    seats, engine = engine_of(given, table, options.get("grace", 5.0))
    drive = Drive(given.set, given.store, seats=seats, engine=engine, tell=teller.tell, log=given.log or table.get("log"),
                  look=lambda it: look.Server(it, given.http), **options)
    lacking = [task.name for task in drive.tasks if not drive.options.of(task.name, "command")]
    if lacking:
        raise Wrong(f"no command for {lacking[0]}: give one behind --, by --task {lacking[0]}=COMMAND, or in a drive file")
    teller.drive = drive
    drive.every = teller.every if teller.is_shown else None
    try:
        return drive.run()
    finally:
        teller.clear()


def split(words):
    at = words.index("--") if "--" in words else len(words)
    return words[:at], None, words[at + 1:]


def main(words=None):
    words = sys.argv[1:] if words is None else words
    try:
        if words[:1] == ["status"]:
            return look.show_status(words[1:])
        if words[:1] == ["resume"]:
            return look.ask_resume(words[1:])
        return run(words)
    except (Wrong, sets.BadFile) as error:
        print(f"pfx-drive: {error}", file=sys.stderr)
        return 2
    except Mismatch as error:
        print(f"pfx-drive: {error}", file=sys.stderr)
        return 2
    except Refused as error:
        print(f"{error}" if str(error).startswith("pfx") else f"pfx-drive: {error}", file=sys.stderr)
        return error.status
    except KeyboardInterrupt:
        return STOPPED
    except BrokenPipeError:
        os.dup2(os.open(os.devnull, os.O_WRONLY), 1)
        return STOPPED
    except OSError as error:
        print(f"pfx-drive: {error}", file=sys.stderr)
        return 2
