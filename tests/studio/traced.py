"""Runs a program until a system call that changes a file, and kills it there: before the call, or right after it.

The system keeps what a program wrote before it was killed, also without a sync. So such a kill is no power cut: it
shows what each call leaves for the next run, and not what the disk has of it.
"""
import ctypes
import os
import platform
import signal
import stat
import subprocess

from tests.studio.checks import stop

# Of ptrace(2), the same on every machine.
TRACEME, SYSCALL, SETOPTIONS, GET_SYSCALL_INFO = 0, 24, 0x4200, 0x420E
TRACESYSGOOD, EXITKILL = 0x1, 0x100000
ENTRY, EXIT = 1, 2
STOPPED_AT_CALL = signal.SIGTRAP | 0x80
# The numbers of system calls of x86-64. These change the file of their first argument, if it is a file or a folder.
ON_FILES = {1: "write", 18: "pwrite64", 20: "writev", 296: "pwritev", 328: "pwritev2", 74: "fsync", 75: "fdatasync",
            77: "ftruncate", 285: "fallocate", 91: "fchmod", 93: "fchown", 326: "copy_file_range"}
# These change files by name.
BY_NAME = {76: "truncate", 82: "rename", 264: "renameat", 316: "renameat2", 86: "link", 265: "linkat", 87: "unlink",
           263: "unlinkat", 85: "creat", 90: "chmod", 268: "fchmodat", 92: "chown", 260: "fchownat"}
# These make or cut a file if their flags say so, which are the argument of this number.
OPENS = {2: 1, 257: 2}

LIBC = ctypes.CDLL(None, use_errno=True)
LIBC.ptrace.argtypes = [ctypes.c_long, ctypes.c_long, ctypes.c_void_p, ctypes.c_void_p]
LIBC.ptrace.restype = ctypes.c_long


class Call(ctypes.Structure):
    """The system call at which a process stopped (struct ptrace_syscall_info)."""

    _fields_ = [("op", ctypes.c_uint8), ("arch", ctypes.c_uint32), ("instruction", ctypes.c_uint64),
                ("stack", ctypes.c_uint64), ("number", ctypes.c_uint64), ("arguments", ctypes.c_uint64 * 6)]


def ptrace(request, process, address=0, data=0):
    """Calls ptrace(2)."""
    if LIBC.ptrace(request, process, address, data) < 0:
        number = ctypes.get_errno()
        raise OSError(number, f"ptrace: {os.strerror(number)}")


def be_traced():
    """Has this process traced by its parent."""
    ptrace(TRACEME, 0)


class Traced:
    """A process, without threads, that is killed at one of its calls that change a file. The thread that makes it has
    to run it."""

    def __init__(self, words, at=None, is_after=False, **streams):
        if platform.machine() != "x86_64":
            stop("system calls are counted on x86-64 alone")
        self.at, self.is_after = at, is_after
        # How many calls there were, and whether the last one changes a file.
        self.count, self.changes, self.is_killed = 0, False, False
        self.child = subprocess.Popen(words, preexec_fn=be_traced, **streams)
        self.process = self.child.pid

    def run(self):
        """Runs the process to its end. Returns itself."""
        os.waitpid(self.process, 0)
        ptrace(SETOPTIONS, self.process, 0, TRACESYSGOOD | EXITKILL)
        passed = 0
        while True:
            self.go_on(passed)
            _, status = os.waitpid(self.process, 0)
            if not os.WIFSTOPPED(status):
                self.child.returncode = os.waitstatus_to_exitcode(status)
                return self
            passed = os.WSTOPSIG(status)
            if passed == STOPPED_AT_CALL:
                passed = 0
                self.meet_call()

    def go_on(self, passed):
        """Lets the process run until it stops again, with a signal that is passed to it, if it is not 0."""
        try:
            ptrace(SYSCALL, self.process, 0, passed)
        except ProcessLookupError:
            # It was killed.
            pass

    def meet_call(self):
        """Counts the call at which the process stopped, if it changes a file. Kills the process if it is the one."""
        call = Call()
        ptrace(GET_SYSCALL_INFO, self.process, ctypes.sizeof(call), ctypes.addressof(call))
        if call.op == ENTRY:
            self.changes = self.changes_file(call.number, call.arguments)
            self.count += self.changes
        if self.changes and self.count == self.at and call.op == (EXIT if self.is_after else ENTRY):
            self.is_killed = True
            os.kill(self.process, signal.SIGKILL)

    def changes_file(self, number, arguments):
        """Whether the call changes a file or a folder."""
        if number in ON_FILES:
            mode = os.stat(f"/proc/{self.process}/fd/{arguments[0]}").st_mode
            return stat.S_ISREG(mode) or stat.S_ISDIR(mode)
        makes = number in OPENS and arguments[OPENS[number]] & (os.O_CREAT | os.O_TRUNC) != 0
        return makes or number in BY_NAME

    def printed(self):
        """What the process printed, if its output is a pipe, with both streams. It has to be less than a pipe holds."""
        output, errors = self.child.stdout.read(), self.child.stderr.read()
        self.child.stdout.close()
        self.child.stderr.close()
        return output.decode(), errors.decode()


def killed_at(words, at, is_after):
    """Runs the words. Kills the process at this one of its calls that change a file, before it or right after it."""
    return Traced(words, at, is_after, stdout=subprocess.PIPE, stderr=subprocess.PIPE).run()
