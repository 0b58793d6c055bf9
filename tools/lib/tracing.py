#!/usr/bin/env python3
"""Runs a program below ptrace(2), and calls back before each of its calls on files: on Linux on x86-64."""
import ctypes
import os
import signal
import subprocess

# Requests of ptrace(2), and the option that marks the stop at a system call by a bit of its own.
TRACEME, SYSCALL, GETREGS, SETREGS, SETOPTIONS = 0, 24, 12, 13, 0x4200
TRACESYSGOOD = 1
AT_SYSCALL = signal.SIGTRAP | 0x80
# The calls that are told, by their numbers, with the place of the path or descriptor among their arguments.
CALLS = {257: ("openat", 1), 332: ("statx", 1), 17: ("pread64", 0), 217: ("getdents64", 0), 1: ("write", 0)}
# Registers by their place in the kernel's structure.
NUMBER, RESULT, ARGUMENTS = 15, 10, (14, 13, 12)
NO_CALL = 2**64 - 1

LIBC = ctypes.CDLL(None, use_errno=True)
LIBC.ptrace.restype = ctypes.c_long
LIBC.ptrace.argtypes = [ctypes.c_long, ctypes.c_long, ctypes.c_void_p, ctypes.c_void_p]


def ptrace(request, pid, data=None):
    if LIBC.ptrace(request, pid, None, data) < 0:
        raise OSError(ctypes.get_errno(), f"ptrace {request}")


class Tracee:
    """A process that stops before and behind each system call."""

    def __init__(self, pid):
        self.pid, self.registers = pid, (ctypes.c_ulonglong * 27)()

    def read(self):
        ptrace(GETREGS, self.pid, ctypes.addressof(self.registers))

    def write(self):
        ptrace(SETREGS, self.pid, ctypes.addressof(self.registers))

    def text_at(self, address):
        """The text up to the zero behind it."""
        with open(f"/proc/{self.pid}/mem", "rb", buffering=0) as memory:
            memory.seek(address)
            return memory.read(4096).split(b"\0")[0].decode(errors="replace")

    def call(self):
        """The call that it is about to make, and its file's path from the root; none for another call."""
        self.read()
        if self.registers[NUMBER] not in CALLS:
            return None
        name, place = CALLS[self.registers[NUMBER]]
        given = self.registers[ARGUMENTS[place]]
        if name in ("openat", "statx"):
            path = self.text_at(given)
            return (name, os.path.join(os.readlink(f"/proc/{self.pid}/cwd"), path)) if path else None
        try:
            return name, os.readlink(f"/proc/{self.pid}/fd/{given}")
        except OSError:
            return None

    def skip(self):
        """The call isn't made."""
        self.registers[NUMBER] = NO_CALL
        self.write()

    def answer(self, error):
        """The call that wasn't made ends with this error."""
        self.read()
        self.registers[RESULT] = 2**64 - error
        self.write()


def traced(words, before, **options):
    """The status of a run. `before(name, path)` is called before each call on a file, and says with which error that
    call ends in place of being made: None for none."""
    child = subprocess.Popen(words, preexec_fn=lambda: ptrace(TRACEME, 0), **options)
    tracee, enters, error, passed = Tracee(child.pid), True, None, 0
    _, status = os.waitpid(child.pid, 0)
    ptrace(SETOPTIONS, child.pid, TRACESYSGOOD)
    try:
        while not (os.WIFEXITED(status) or os.WIFSIGNALED(status)):
            ptrace(SYSCALL, child.pid, passed)
            _, status = os.waitpid(child.pid, 0)
            passed = 0
            if os.WIFSTOPPED(status) and os.WSTOPSIG(status) != AT_SYSCALL:
                passed = os.WSTOPSIG(status)
            elif os.WIFSTOPPED(status):
                if enters and (call := tracee.call()) and (error := before(*call)):
                    tracee.skip()
                elif not enters and error:
                    tracee.answer(error)
                    error = None
                enters = not enters
    except BaseException:
        child.kill()
        os.waitpid(child.pid, 0)
        raise
    finally:
        child.returncode = 0
    return os.waitstatus_to_exitcode(status)
