"""INT, TERM and HUP end the command as they end others, after it has cleaned up."""
import os
import signal

ENDING = (signal.SIGINT, signal.SIGTERM, signal.SIGHUP)


class Stopped(BaseException):
    """A signal has come."""

    def __init__(self, number):
        super().__init__(number)
        self.number = number


def stopped(number, frame):
    for one in ENDING:
        signal.signal(one, signal.SIG_IGN)  # one is enough: a second one must not end the cleanup
    raise Stopped(number)


def install():
    """A signal that is ignored, as under nohup, stays ignored."""
    for number in ENDING:
        if signal.getsignal(number) is not signal.SIG_IGN:
            signal.signal(number, stopped)


def die(number):
    """Ends this process by a signal, so that whoever waits for it sees that."""
    signal.signal(number, signal.SIG_DFL)
    os.kill(os.getpid(), number)
    os._exit(128 + number)
