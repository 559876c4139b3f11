"""Runs a command so that nothing of it outlives the process that wants it: python3 guard.py FD COMMAND...

FD is the read end of a pipe whose write end only that process has. In whatever way it ends, also by KILL, the pipe then reads as ended, and this
process ends the whole process group of the command. The command has standard input from /dev/null and its own temporary folder, which is
removed. Standard output and error are what this process has, which is another pipe of the same process: so no file or pipe of the user's is
held open here. The exit status is the command's, or 128 and the signal that ended it.
"""
import os
import select
import shutil
import signal
import subprocess
import sys
import tempfile

PATIENCE = 5  # seconds between TERM and KILL


def end(group, number):
    try:
        os.killpg(group, number)
    except (ProcessLookupError, PermissionError):
        pass


def has_ended(pid, woken, watched, seconds=None):
    """Waits until the command has ended (True), the watched pipe has (False), or the time is over (False). The command is not reaped: its
    process group keeps its number until then."""
    while True:
        if os.waitid(os.P_PID, pid, os.WEXITED | os.WNOHANG | os.WNOWAIT):
            return True
        ready, _, _ = select.select([woken] + ([watched] if watched is not None else []), [], [], seconds)
        if woken in ready:
            os.read(woken, 64)
        elif watched in ready or seconds is not None:
            return False


def main():
    watched, command = int(sys.argv[1]), sys.argv[2:]
    woken, wake = os.pipe()
    os.set_blocking(wake, False)
    signal.signal(signal.SIGCHLD, lambda *_: None)
    signal.set_wakeup_fd(wake, warn_on_full_buffer=False)
    for number in (signal.SIGINT, signal.SIGTERM, signal.SIGHUP, signal.SIGPIPE):
        signal.signal(number, signal.SIG_IGN)  # only the pipe counts
    folder = tempfile.mkdtemp(prefix="ducat-build-")
    try:
        child = subprocess.Popen(command, stdin=subprocess.DEVNULL, start_new_session=True, env={**os.environ, "TMPDIR": folder},
                                 preexec_fn=as_usual)
        if not has_ended(child.pid, woken, watched):
            end(child.pid, signal.SIGTERM)
            has_ended(child.pid, woken, None, PATIENCE)
        end(child.pid, signal.SIGKILL)
        status = child.wait()
    finally:
        shutil.rmtree(folder, ignore_errors=True)
    return status if status >= 0 else 128 - status


def as_usual():
    """The command gets signals as usual."""
    for number in (signal.SIGINT, signal.SIGTERM, signal.SIGHUP, signal.SIGPIPE):
        signal.signal(number, signal.SIG_DFL)


if __name__ == "__main__":
    sys.exit(main())
