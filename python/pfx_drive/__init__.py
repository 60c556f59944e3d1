"""Runs people's own commands under pfx's shares: each granted unit's answer is recorded once in the store, whatever is killed.

    from pfx_drive import Drive
    Drive("set.toml", "work.pfx", command=["./work"]).run()

docs/DRIVE.md says what it promises and how to use it as a command, pfx-drive."""
from .drive import DONE, PARKED, STOPPED, Drive
from .engines import LOST, Calls, End, Engine, Local, Unit
from .place import Mismatch
from .sets import BadFile
from .store import Refused

__version__ = "0.1.0"
__all__ = ["DONE", "PARKED", "STOPPED", "LOST", "BadFile", "Calls", "Drive", "End", "Engine", "Local", "Mismatch", "Refused", "Unit"]
