"""Runs a command on a terminal."""
import contextlib
import os
import pty
import subprocess
import threading
import tty


def run_on_terminal(words, stream, cwd=None, longest=60):
    """Runs the words with `stdout` or `stderr` on a terminal. Returns the status, and what came on the terminal and on
    the other of the two streams. After the longest time, in seconds, the command is killed."""
    ours, theirs = pty.openpty()
    tty.setraw(theirs)
    streams = {"stdout": subprocess.PIPE, "stderr": subprocess.PIPE, stream: theirs}
    printed = b""
    with open(ours, "rb", buffering=0) as terminal, subprocess.Popen(words, cwd=cwd, **streams) as child:
        os.close(theirs)
        timer = threading.Timer(longest, child.kill)
        timer.start()
        # The end of a terminal that nobody has open is an error.
        with contextlib.suppress(OSError):
            while piece := terminal.read(1 << 16):
                printed += piece
        others = child.communicate()
        timer.cancel()
    return child.returncode, printed.decode(), next(it for it in others if it is not None).decode()
