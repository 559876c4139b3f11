"""Several processes for `ducat check --jobs N` and `ducat figures --jobs N`, with the answers in the order of the inputs.

Process k takes the inputs k, k + N, k + 2 N, ... and writes its answers to its own pipe, from which they are read in turn. A process has
none of the command's own descriptors, and ends with the command, even if that is ended by KILL.
"""
import marshal
import os
import signal
import struct
import sys

from .output import Failed
from .signals import ENDING

LENGTH = struct.Struct("<I")
DEATH_SIGNAL = 1  # of prctl


def answers(checker, found, jobs):
    """The answers to all inputs, in their order: a generator."""
    jobs = min(jobs, len(found))
    return shared(checker, found, jobs) if jobs > 1 else (checker.answer(one) for one in found)


def shared(checker, found, jobs):
    from .check import Answer

    def is_given(one):
        """Standard input belongs to the command itself."""
        return one.path is None and one.error is None

    def answer(one):
        given = checker.answer(one)
        return given.verdict, given.errors, given.out, given.err

    received_in_turn = results(answer, [one for one in found if not is_given(one)], jobs)
    try:
        for one in found:
            yield checker.answer(one) if is_given(one) else Answer(*next(received_in_turn))
    finally:
        received_in_turn.close()


def results(function, items, jobs):
    """The result of a function for each item, in their order: a generator. marshal must be able to write the results."""
    pipes, children = [], []
    try:
        # a signal between a fork and its record would leave a process behind
        before = signal.pthread_sigmask(signal.SIG_BLOCK, ENDING)
        try:
            for first in range(jobs):
                start(function, items[first::jobs], pipes, children)
        finally:
            signal.pthread_sigmask(signal.SIG_SETMASK, before)
        for at in range(len(items)):
            yield received(pipes[at % jobs])
    finally:
        end(pipes, children)


def start(function, items, pipes, children):
    reading, writing = os.pipe()
    parent = os.getpid()
    child = os.fork()
    if child:
        os.close(writing)
        children.append(child)
        pipes.append(os.fdopen(reading, "rb", 1 << 16))
        return
    status = 1
    try:
        for number in ENDING:
            signal.signal(number, signal.SIG_DFL)
        signal.pthread_sigmask(signal.SIG_UNBLOCK, ENDING)
        end_with(parent)
        for pipe in pipes:
            pipe.close()
        os.close(reading)
        detach()
        work(function, items, writing)
        status = 0
    except BaseException:
        pass  # the command sees that an answer is missing
    finally:
        os._exit(status)


def end_with(parent):
    """Ends this process when its parent ends."""
    if sys.platform.startswith("linux"):
        import ctypes
        ctypes.CDLL(None).prctl(DEATH_SIGNAL, signal.SIGKILL, 0, 0, 0)
    if os.getppid() != parent:
        os._exit(1)


def detach():
    nothing = os.open(os.devnull, os.O_RDWR)
    for descriptor in range(3):
        os.dup2(nothing, descriptor)


def work(function, items, writing):
    for item in items:
        data = marshal.dumps(function(item))
        data = LENGTH.pack(len(data)) + data
        while data:
            data = data[os.write(writing, data):]


def received(pipe):
    length = pipe.read(LENGTH.size)
    if len(length) == LENGTH.size:
        data = pipe.read(LENGTH.unpack(length)[0])
        if len(data) == LENGTH.unpack(length)[0]:
            return marshal.loads(data)
    raise Failed("a process of --jobs ended without an answer")


def end(pipes, children):
    for child in children:
        try:
            os.kill(child, signal.SIGKILL)
        except ProcessLookupError:
            pass
    for pipe in pipes:
        pipe.close()
    for child in children:
        os.waitpid(child, 0)
