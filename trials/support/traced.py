"""A program's calls of the system, as its tracer sees them (ptrace, by ctypes: nothing has to be installed), with one sync that fails, is
made again when it has failed, or is swallowed: answered as made, and not made. Linux on x86-64 from 5.3 on.

Why it is so:
- **Syncs are tried by tracing**, not by a library that is preloaded: a static program takes none, and a call that isn't made is seen only
  from outside. The tracer is Python over ptrace, so a trial needs nothing installed. It can swallow a sync and have a failed one made
  again, and the trial does both, to show that its rules see it."""
import ctypes
import errno
import os
import signal
from collections import namedtuple

CALLS = {0: "read", 1: "write", 3: "close", 17: "pread", 18: "pwrite", 74: "fsync", 75: "fdatasync", 77: "ftruncate", 257: "openat"}
SYNCS = ("fsync", "fdatasync")
TRACE_ME, GET_REGS, SET_REGS, SYSCALL, SET_OPTIONS, GET_SYSCALL_INFO = 0, 12, 13, 24, 0x4200, 0x420E
SYSGOOD, FORKS, EXIT_KILL = 1, 2 | 4 | 8, 1 << 20
ALL_CHILDREN = 0x40000000
WORD = 1 << 64

# A call that has ended: the thread, its name, its first argument and its place, the bytes that it wrote or the path that it opened, its
# result.
Call = namedtuple("Call", "thread name file place data result")
# What came of a run: its status, its calls in the order of their ends, standard error, and how many threads it had beside the first.
Run = namedtuple("Run", "status calls err threads")

libc = ctypes.CDLL(None, use_errno=True)
libc.ptrace.argtypes = [ctypes.c_long, ctypes.c_long, ctypes.c_void_p, ctypes.c_void_p]
libc.ptrace.restype = ctypes.c_long


class Registers(ctypes.Structure):
    _fields_ = [(name, ctypes.c_ulong) for name in (
        "r15 r14 r13 r12 rbp rbx r11 r10 r9 r8 rax rcx rdx rsi rdi orig_rax rip cs eflags rsp ss fs_base gs_base ds es fs gs").split()]


class Info(ctypes.Structure):
    """What a thread that has stopped at a call is about: 1 stands for its beginning, 2 for its end."""
    _fields_ = [("op", ctypes.c_uint8), ("pad", ctypes.c_uint8 * 3), ("arch", ctypes.c_uint32), ("ip", ctypes.c_uint64), ("sp", ctypes.c_uint64),
                ("words", ctypes.c_uint64 * 8)]


def ptrace(request, thread, where=None, data=None):
    if libc.ptrace(request, thread, where, data) < 0:
        error = ctypes.get_errno()
        raise OSError(error, os.strerror(error))


class Trace:
    """One run of a program below this process. `doctor` is None, or what befalls the sync of the number `which`, counted from 1: `fail`,
    `retry`, `swallow`; or `swallow fsync`, `swallow fdatasync`, of each such one."""

    def __init__(self, words, folder, doctor, which):
        self.doctor, self.which = doctor, which
        self.begun, self.treated, self.calls, self.syncs, self.threads = {}, {}, [], 0, 0
        end, self.err = os.pipe()
        self.child = os.fork()
        if self.child == 0:
            self.become(words, folder)
        os.close(self.err)
        _, stopped = os.waitpid(self.child, ALL_CHILDREN)
        if not os.WIFSTOPPED(stopped):
            raise OSError(errno.EPERM, "a program isn't traced here")
        with open(f"/proc/{self.child}/mem", "rb", buffering=0) as self.memory:
            status = self.follow()
        with os.fdopen(end) as it:
            self.run = Run(status, self.calls, it.read(), self.threads)

    def become(self, words, folder):
        try:
            os.chdir(folder)
            none = os.open("/dev/null", os.O_RDWR)
            for stream, file in enumerate((none, none, self.err)):
                os.dup2(file, stream)
            ptrace(TRACE_ME, 0)
            os.execv(words[0], words)
        finally:
            os._exit(127)

    def follow(self):
        """Until the program has ended: its status."""
        ptrace(SET_OPTIONS, self.child, None, SYSGOOD | FORKS | EXIT_KILL)
        ptrace(SYSCALL, self.child)
        while True:
            thread, status = os.waitpid(-1, ALL_CHILDREN)
            if not os.WIFSTOPPED(status):
                if thread == self.child:
                    return os.waitstatus_to_exitcode(status)
                continue
            passed_on = self.at_stop(thread, os.WSTOPSIG(status), status >> 16)
            try:
                ptrace(SYSCALL, thread, None, passed_on)
            except ProcessLookupError:
                pass                                 # it ended with all others

    def at_stop(self, thread, number, event):
        """Does what is to be done where a thread has stopped, and returns the signal that it is to have."""
        if number == signal.SIGTRAP | 0x80:
            info = Info()
            ptrace(GET_SYSCALL_INFO, thread, ctypes.sizeof(info), ctypes.addressof(info))
            if info.op == 1:
                self.begin(thread, info.words)
            elif thread in self.begun:
                self.end(thread, ctypes.c_int64(info.words[0]).value)
        elif event:
            self.threads += 1
        elif number not in (signal.SIGSTOP, signal.SIGTRAP):
            return int(number)
        return None

    def begin(self, thread, words):
        name = CALLS.get(words[0])
        if name is None:
            return
        data, place = b"", words[4]
        if name in ("write", "pwrite"):
            data = os.pread(self.memory.fileno(), words[3], words[2])
        elif name == "openat":
            data = os.pread(self.memory.fileno(), 256, words[2]).split(b"\0")[0]
        self.begun[thread] = (name, words[1], place, data, words[0])
        if name in SYNCS:
            self.syncs += 1
            if self.doctor and (self.syncs == self.which or self.doctor == f"swallow {name}"):
                self.treated[thread] = self.doctor.split()[0]
                self.change(thread, orig_rax=WORD - 1)

    def end(self, thread, result):
        name, file, place, data, number = self.begun.pop(thread)
        treatment = self.treated.pop(thread, None)
        if treatment == "swallow":
            self.change(thread, rax=0)
            return
        if treatment is not None:
            result = -errno.EIO
            self.change(thread, rax=WORD + result)
        if treatment == "retry":
            self.change(thread, rax=number, back=2)
        self.calls.append(Call(thread, name, file, place, data, result))

    def change(self, thread, back=0, **values):
        registers = Registers()
        ptrace(GET_REGS, thread, None, ctypes.addressof(registers))
        for name, value in values.items():
            setattr(registers, name, value)
        registers.rip -= back
        ptrace(SET_REGS, thread, None, ctypes.addressof(registers))


def traced(words, folder, doctor=None, which=0):
    return Trace(words, folder, doctor, which).run
