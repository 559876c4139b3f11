"""ducat figures: counts over table files that are joined into one input.

The files are read into a buffer and counted by the library's step, which adds the file at the front of the buffer. It is proved that such steps
give the report of the whole input as long as a step gets 59,904 bytes, or all that are left. So memory does not grow with the input.

With --jobs the list of inputs is cut into parts. Their reports are added in order, up to the first part that a refusal ended. If that is 70 (a block is
short), the file may continue in the next part: everything from there on is counted once more, in one process.
"""
import ctypes
import os
import stat
import time
from bisect import bisect_right
from itertools import accumulate

from . import inputs
from .library import COUNT, COUNTED_ERRORS, MOST, NO_FIGURES, Figures
from .numbers import MODES, MOST_FILES, WINDOW_BYTES, WORDS
from .output import FORMAT, Failed, Report, dumps, named, say, tell, visible

BLOCK_SHORT = 70
BUFFER = 32 * WINDOW_BYTES
PART = 1 << 23  # bytes: the least size of a part of --jobs
PARTS = 16  # parts for each process, so that none waits for long
REPORT_MOST = 2 ** 30  # bytes of a report that is added

LABELS = ("files", "nodes", "lists", *(f"mode {mode}" for mode in MODES), "calls accepted", "calls refused", *(f"error {number}" for number in COUNTED_ERRORS))
EXPLAINED = (
    "table files", "nodes of their tables", "parameter lists: each Def and each Lambda", *(f"parameters of mode {name} in accepted lists" for name in MODES.values()),
    "calls whose arguments are accepted", "calls whose arguments are refused (20 to 24)", *(WORDS[number] for number in COUNTED_ERRORS))


class Counted:
    """The report of an input, or of a part of one: the counts, the refusal's number (0 if there is none) and position, the length of each file, and why a
    file cannot be read. All of it can be sent to another process."""

    def __init__(self, counts, number=0, position=0, lengths=(), failed=None):
        self.counts, self.number, self.position, self.lengths, self.failed = list(counts), number, position, list(lengths), failed

    @property
    def total(self):
        return sum(self.lengths)

    def packed(self):
        return self.counts, self.number, self.position, self.lengths, self.failed


# ---- reading

class Stream:
    """The inputs one after another. `skip` bytes of the first are left out. `lengths` has the number of bytes read from each so far."""

    def __init__(self, found, skip=0):
        self.waiting, self.skip, self.descriptor, self.lengths = iter(found), skip, None, []
        self.name = None

    def read(self, view):
        """Fills a part of a buffer, and returns its number of bytes; 0 is the end of all inputs. Raises OSError or ValueError."""
        while self.descriptor is not None or self.open_next():
            got = os.readv(self.descriptor, [view])
            if got:
                self.lengths[-1] += got
                return got
            self.close()
        return 0

    def open_next(self):
        one = next(self.waiting, None)
        if one is None:
            return False
        self.name = one.name
        if one.error is not None:
            raise one.error
        self.descriptor = 0 if one.path is None else os.open(one.path, os.O_RDONLY | os.O_CLOEXEC | os.O_NOCTTY)
        self.lengths.append(0)
        if self.skip:
            self.lengths[-1] = os.lseek(self.descriptor, self.skip, os.SEEK_SET)
            self.skip = 0
        return True

    def close(self):
        if self.descriptor:
            os.close(self.descriptor)
        self.descriptor = None

    def measure(self):
        """The lengths of the rest: for a regular file its size, for others by reading them."""
        space = memoryview(bytearray(inputs.CHUNK))
        while self.descriptor is not None or self.open_next():
            told = os.fstat(self.descriptor)
            if stat.S_ISREG(told.st_mode) and self.descriptor:
                self.lengths[-1] = max(self.lengths[-1], told.st_size)
            else:
                while True:
                    got = os.readv(self.descriptor, [space])
                    if not got:
                        break
                    self.lengths[-1] += got
            self.close()


class Window:
    """The buffer that files are read into, and the counters of the library's step."""

    def __init__(self, library, counts=NO_FIGURES):
        self.library, self.counts = library, (COUNT * len(counts))(*counts)
        self.buffer = bytearray(BUFFER)
        self.view = memoryview(self.buffer)
        self.base = ctypes.addressof((ctypes.c_char * BUFFER).from_buffer(self.buffer))

    def count(self, stream, progress):
        """Counts all of a stream. Returns the number of the refusal that ended it, or 0, and the position. Raises OSError or ValueError if a read fails,
        unless a refusal comes before: only 70 depends on the bytes that follow."""
        end, taken = 0, 0
        while True:
            end, ended, error = self.fill(stream, end)
            # at the end of the input a step gets all that is left
            at, number = self.library.figures_steps(self.base, self.base + end, 1 if ended else WINDOW_BYTES, self.counts)
            at -= self.base
            taken += at
            if error and number in (0, BLOCK_SHORT):
                raise error
            if number or ended:
                return number, taken
            progress.step(self.counts[0], taken)
            self.view[:end - at] = self.view[at:end]
            end -= at

    def fill(self, stream, end):
        """Reads until the buffer is full. Returns its number of bytes, whether the input has ended, and the reason if a read fails."""
        try:
            while end < BUFFER:
                got = stream.read(self.view[end:])
                if not got:
                    return end, True, None
                end += got
        except (OSError, ValueError) as error:
            return end, True, error
        return end, False, None


def count(library, found, counts=NO_FIGURES, skip=0, measured=False, progress=None):
    """The report of inputs, made by one process. `measured`: the lengths are complete also after a refusal."""
    stream, window = Stream(found, skip), Window(library, counts)
    try:
        number, position = window.count(stream, progress or Silent())
        if number and measured:
            stream.measure()
    except (OSError, ValueError) as error:
        return Counted(window.counts, failed=f"{stream.name}: {inputs.reason(error) if isinstance(error, OSError) else error}")
    finally:
        stream.close()
    return Counted(window.counts, number, position, stream.lengths)


# ---- several processes

def sizes_of(found):
    """The size of each input, or None if one is not a regular file, which cannot be read twice."""
    sizes = []
    for one in found:
        try:
            told = os.stat(one.path) if one.path is not None and one.error is None else None
        except (OSError, ValueError):
            told = None  # reading it reports what is wrong
        if told is None or not stat.S_ISREG(told.st_mode):
            return None
        sizes.append(told.st_size)
    return sizes


def parts_of(sizes, jobs):
    """The parts of --jobs: ranges of inputs."""
    least, parts, first, size = max(PART, sum(sizes) // (jobs * PARTS)), [], 0, 0
    for at, one in enumerate(sizes):
        size += one
        if size >= least or at == len(sizes) - 1:
            parts.append(range(first, at + 1))
            first, size = at + 1, 0
    if len(parts) >= jobs:
        return parts
    many = min(jobs, len(sizes))
    return [range(at * len(sizes) // many, (at + 1) * len(sizes) // many) for at in range(many)]


def count_in_parts(library, found, jobs, measured, progress):
    """The same report, made by several processes."""
    sizes = sizes_of(found)
    if sizes is None or len(found) < 2:
        return count(library, found, measured=measured, progress=progress)
    from .workers import results
    parts = parts_of(sizes, jobs)
    given = results(lambda part: count(library, [found[at] for at in part]).packed(), parts, min(jobs, len(parts)))
    counts, lengths, begins = [0] * len(NO_FIGURES), [], 0
    try:
        for part, packed in zip(parts, given):
            one = Counted(*packed)
            counts = [old + new for old, new in zip(counts, one.counts)]
            if counts[0] > MOST_FILES:  # 76: only one process can find which file it is
                return count(library, found, measured=measured, progress=progress)
            if one.failed:
                return Counted(counts, failed=one.failed)
            if one.number == BLOCK_SHORT:
                return count_on(library, found, counts, lengths, begins, part, one, measured, progress)
            if one.number:
                return Counted(counts, one.number, begins + one.position, lengths + sizes[part.start:])
            lengths += one.lengths
            begins += one.total
            progress.step(counts[0], begins)
    finally:
        given.close()
    return Counted(counts, lengths=lengths)


def count_on(library, found, counts, lengths, begins, part, one, measured, progress):
    """Continues from the position at which a part was refused with 70, to the end of all inputs."""
    at, skip = place_of(one.lengths, one.position)
    more = count(library, found[part.start + at:], counts, skip, measured, progress)
    return Counted(more.counts, more.number, begins + one.position + more.position, lengths + one.lengths[:at] + more.lengths, more.failed)


def place_of(lengths, position):
    """The file that a position is in, and the place in it."""
    ends = list(accumulate(lengths))
    at = bisect_right(ends, position)
    return at, position - (ends[at - 1] if at else 0)


# ---- reports that are added

def read_report(path):
    """A report by its JSON."""
    import json
    one = inputs.standard_input() if path == "-" else inputs.Input(path)
    try:
        data = inputs.read(one, REPORT_MOST + 1)
    except (OSError, ValueError) as error:
        raise Failed(f"{path}: {inputs.reason(error) if isinstance(error, OSError) else error}") from None
    try:
        told = json.loads(data)
        if told["version"] != FORMAT or told["command"] != "figures":
            raise Failed(f"{path}: this is version {told['version']} of `ducat {told['command']}`; version {FORMAT} of figures is needed")
        told["status"]  # a run that was cut off has none
        counts = [whole(told["figures"][field]) for field in Figures._fields]
        refused = told["refused"]
        if counts[0] > MOST_FILES:
            raise ValueError
        told["proved"] if told["added"] else told["library"]["proved"]
        return told, Counted(counts, whole(refused["number"]) if refused else 0, whole(refused["position"]) if refused else 0, [whole(told["bytes"])])
    except (ValueError, KeyError, TypeError, RecursionError):
        raise Failed(f"{path}: this is not the JSON of a whole run of `ducat figures`") from None


def whole(number):
    """A count of 64 bits."""
    if type(number) is not int or not 0 <= number <= MOST:
        raise ValueError
    return number


class Sum:
    """Reports that are added in the order given: the sum, the refusal of the last one as its JSON has it, and whether a proved library made all."""

    def __init__(self, paths):
        self.counted, self.refusal, self.proved = Counted(NO_FIGURES), None, True
        for at, path in enumerate(paths):
            if self.refusal:
                raise Failed(f"{paths[at - 1]}: a refusal ended this report, so no other can follow it")
            self.add(path, *read_report(path))

    def add(self, path, told, one):
        before = self.counted
        counts = [old + new for old, new in zip(before.counts, one.counts)]
        if counts[0] > MOST_FILES:
            raise Failed(f"{path}: with this report there are more than {MOST_FILES:,} files")
        position = before.total + one.position if one.number else 0
        self.counted = Counted(counts, one.number, position, before.lengths + one.lengths)
        self.refusal = {**told["refused"], "position": position} if one.number else None
        if not (told["proved"] if told["added"] else told["library"]["proved"]):
            self.proved = False
            say(f"{path}: the library that made this report is not proved")


# ---- printing

class Silent:
    def step(self, files, taken):
        pass

    def clear(self):
        pass


class Progress(Silent):
    """The progress of a run, in one line on standard error, if that is a terminal."""

    PAUSE = 0.1  # seconds

    def __init__(self):
        self.shown, self.drawn, self.last = os.isatty(2), False, time.monotonic()

    def step(self, files, taken):
        now = time.monotonic()
        if self.shown and now - self.last >= self.PAUSE:
            self.last, self.drawn = now, True
            tell(f"\r{files:,} files, {taken:,} bytes\x1b[K".encode())

    def clear(self):
        if self.drawn:
            tell(b"\r\x1b[K")
            self.drawn = False


def lines(counted, where=None, explain=False):
    """The report in text: a line for each count, and one for the refusal."""
    for label, words, number in zip(LABELS, EXPLAINED, counted.counts):
        yield f"{label} {number}" + (f": {words}" if explain else "")
    if counted.number:
        words = f": {WORDS[counted.number]}" + (f"; {where}" if where else "") if explain else ""
        yield f"refused {counted.number} {counted.position}{words}"


def csv_lines(counted):
    """A line of names and one of numbers. If no refusal ended the report, its two fields are empty."""
    yield ",".join((*Figures._fields, "refused", "position"))
    yield ",".join(map(str, (*counted.counts, *((counted.number, counted.position) if counted.number else ("", "")))))


def in_json(counted, refusal):
    return {"bytes": counted.total, "figures": dict(zip(Figures._fields, counted.counts)), "refused": refusal}


def refusal_of(found, counted):
    """The refusal in JSON: its number, words and position, and the input and the place in it."""
    if not counted.number:
        return None
    told = {"number": counted.number, "words": WORDS[counted.number], "position": counted.position}
    at, place = place_of(counted.lengths, counted.position)
    return {**told, "input": named(found[at].name), "place": place}


def where_of(refusal):
    """The input of a refusal and the place in it, in words."""
    if not refusal or "input" not in refusal:
        return None
    return f"in {visible(refusal['input']['name'])}, the file from byte {refusal['place']} on"


def print_report(counted, refusal, options, out):
    if options.format == "csv":
        out.lines(csv_lines(counted))
    else:
        out.lines(lines(counted, where_of(refusal), options.explain))
    return 2 if counted.number else 0


def run(library, found, options, out, front):
    """Counts and prints. Returns the exit status: 0 the report is whole, 2 a refusal ended it."""
    progress = Progress()
    out.before = progress.clear
    measured = options.format == "json"
    try:
        counted = (count_in_parts(library, found, options.jobs, measured, progress) if options.jobs > 1 else
                   count(library, found, measured=measured, progress=progress))
    finally:
        progress.clear()
    if counted.failed:
        raise Failed(counted.failed)
    refusal = refusal_of(found, counted)
    if not measured:
        return print_report(counted, refusal, options, out)
    report = Report(out, front)
    for one, length in zip(found, counted.lengths):
        report.add(dumps({**named(one.name), "kind": "table", "bytes": length}))
    status = 2 if counted.number else 0
    report.end(**in_json(counted, refusal), status=status)
    return status


def add(paths, options, out, front):
    """Adds reports and prints the sum. Returns the exit status, as `run` does."""
    all_ = Sum(paths)
    if options.format != "json":
        return print_report(all_.counted, all_.refusal, options, out)
    report, status = Report(out, front), 2 if all_.refusal else 0
    for path, length in zip(paths, all_.counted.lengths):
        report.add(dumps({**named(path), "kind": "report", "bytes": length}))
    report.end(proved=all_.proved, **in_json(all_.counted, all_.refusal), status=status)
    return status
