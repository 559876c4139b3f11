"""What every command writes: lines on standard output and on standard error, and the JSON of a run (docs/JSON.md).

Standard output is written by its descriptor. A write that fails ends the command: quietly if the reader is gone, otherwise with a sentence.
"""
import errno
import os
import re
import sys
import time

FORMAT = 1  # the version of the JSON: docs/JSON.md
FULL = 1 << 16  # bytes that are kept before they are written
CONTROL = re.compile("[\x00-\x1f\x7f-\x9f\u2028\u2029]")


class OutputFailed(Exception):
    """Standard output cannot be written. Quiet if the reader of a pipe is gone."""

    def __init__(self, error):
        super().__init__(error.strerror or str(error))
        self.quiet = error.errno == errno.EPIPE


class Failed(Exception):
    """The command cannot continue: a sentence for standard error, and the exit status."""

    def __init__(self, message, status=2):
        super().__init__(message)
        self.status = status


def visible(text):
    """A name or a message in one line: a control character is shown as ?. The bytes of a name that is not UTF-8 are not changed."""
    return CONTROL.sub("?", text)


def shown(text):
    """Bytes of a table or of a script in one line: what is not a printable character is shown as ?."""
    return "".join(c if c.isprintable() else "?" for c in text.decode("utf-8", "replace"))


def encoded(text):
    return text.encode("utf-8", "surrogateescape")


class Paint:
    """Colours of a terminal, by the escape sequences of ECMA-48, or none."""

    REFUSAL = re.compile(r"refused \d+|not judged|not met|exchanged|namesake")

    def __init__(self, on=False):
        self.on = on

    def _put(self, code, text):
        return f"\x1b[{code}m{text}\x1b[0m" if self.on and text else text

    def bold(self, text):
        return self._put("1", text)

    def red(self, text):
        return self._put("1;31", text)

    def refusal(self, line):
        """A line that may begin with a refusal."""
        found = self.REFUSAL.match(line) if self.on else None
        return self.red(found[0]) + line[found.end():] if found else line


PLAIN = Paint()


def paint_of(word, terminal, environment=os.environ):
    """The colours that --color names: `auto` has them on a terminal, unless NO_COLOR is set and not empty."""
    dull = environment.get("NO_COLOR") or environment.get("TERM") == "dumb"
    return Paint(word == "always" or word == "auto" and terminal and not dull)


def write_all(descriptor, data):
    while data:
        data = data[os.write(descriptor, data):]


class Out:
    """Standard output."""

    def __init__(self, descriptor=1):
        self.descriptor, self.parts, self.size, self.before = descriptor, [], 0, None
        self.terminal = os.isatty(descriptor)

    def write(self, data):
        self.parts.append(data)
        self.size += len(data)
        if self.size >= FULL or self.terminal:
            self.flush()

    def lines(self, lines):
        self.write(b"".join(encoded(line) + b"\n" for line in lines))

    def flush(self):
        data, self.parts, self.size = b"".join(self.parts), [], 0
        if not data:
            return
        if self.before:
            self.before()
        try:
            write_all(self.descriptor, data)
        except OSError as error:
            raise OutputFailed(error) from None


def say(text, tool="ducat: "):
    """Writes a line to standard error. A failure to write it is ignored."""
    tell(encoded(visible(tool + text)) + b"\n")


def tell(data):
    try:
        write_all(2, data)
    except OSError:
        pass


class Progress:
    """The progress of a run over many files, in one line on standard error, if that is a terminal."""

    LEAST = 20  # files
    PAUSE = 0.1  # seconds

    def __init__(self, total, wanted=True):
        self.total, self.drawn, self.last = total, False, time.monotonic()
        self.shown = wanted and total >= self.LEAST and os.isatty(2)

    def step(self, done, bad):
        now = time.monotonic()
        if self.shown and (now - self.last >= self.PAUSE or done == self.total):
            self.last, self.drawn = now, True
            tell(f"\r{done:,} of {self.total:,} files, {bad:,} with errors\x1b[K".encode())

    def clear(self):
        if self.drawn:
            tell(b"\r\x1b[K")
            self.drawn = False


# ---- JSON

def named(name):
    """A file's name in JSON; if its bytes are not UTF-8, also the bytes in hexadecimal digits."""
    held = os.fsencode(name)
    text = held.decode("utf-8", "replace")
    return {"name": text} if text.encode() == held else {"name": text, "name_bytes": held.hex()}


def dumps(value):
    import json
    return json.dumps(value).encode()


def digest(data):
    import hashlib
    return hashlib.sha256(data).hexdigest()


def head(command, library, configuration=None, **more):
    """What JSON has once for a run, before its inputs."""
    from . import __version__
    about = {"version": text_of(library.version), "sha256": library.checksum, "proved": library.proved} if library else None
    return {"version": FORMAT, "command": command, "ducat": __version__, "library": about, "configuration": configuration, **more}


def text_of(version):
    """A version's three numbers."""
    if isinstance(version, int):
        return f"{version >> 16}.{version >> 8 & 255}.{version & 255}"
    return version if isinstance(version, str) else ".".join(map(str, version))


class Report:
    """The JSON of a run: one object, with a line for each input."""

    def __init__(self, out, front):
        self.out, self.any = out, False
        out.write(dumps(front)[:-1] + b', "inputs": [')

    def add(self, entry):
        """An input, as bytes of JSON."""
        self.out.write((b",\n" if self.any else b"\n") + entry)
        self.any = True

    def end(self, **last):
        self.out.write(b"\n], " + dumps(last)[1:] + b"\n")


def flush_error():
    if sys.stderr:
        try:
            sys.stderr.flush()
        except OSError:
            pass
