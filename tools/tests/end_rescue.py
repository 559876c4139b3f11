#!/usr/bin/env python3
"""Ends the rescuing program by KILL, many times, and checks OUT.

end_rescue.py ROUNDS IN RESCUED COMMAND...    COMMAND is what runs the program, up to its three arguments; IN is a damaged file, RESCUED what
                                              must be rescued from it

Half of the rounds are ended after a random part of the time that a run takes, the others as soon as the new file is
beside OUT, or a little later: while the program writes, flushes and renames. In each second round IN is OUT. While a round runs and after
it OUT must be byte for byte the old file or the new one. The exit status is 1 if it ever was not, or if the rounds show nothing:
none was ended before OUT was replaced with a part beside it, or none was ended after.
"""
import os
import random
import subprocess
import sys
import tempfile
import time


def read(path):
    with open(path, "rb") as file:
        return file.read()


def write(path, data):
    with open(path, "wb") as file:
        file.write(data)


class Rounds:
    def __init__(self, damaged, rescued, command):
        self.damaged, self.rescued, self.command = damaged, rescued, command
        self.looks = self.faults = self.beside = self.parts = self.old = self.new = 0

    def look(self, out, old):
        """OUT at this moment: the old file or the new one."""
        self.looks += 1
        found = read(out)
        if found not in (old, self.rescued):
            self.faults += 1
            print(f"end_rescue: OUT has {len(found)} bytes, and is neither the old file nor the new one")
        return found

    def run(self, room, number, longest):
        out, new = os.path.join(room, "out"), os.path.join(room, "out.new")
        source = out if number % 2 else os.path.join(room, "in")
        old = self.damaged if number % 2 else b"what stood there before"
        write(os.path.join(room, "in"), self.damaged)
        write(out, old)
        program = subprocess.Popen([*self.command, source, new, out], stdout=subprocess.DEVNULL)
        if number % 4 < 2:
            until = time.monotonic() + random.uniform(0, longest)
            while time.monotonic() < until:
                self.look(out, old)
        else:
            while program.poll() is None and not os.path.exists(new) and self.look(out, old) == old:
                pass
            until = time.monotonic() + random.choice((0, 0, random.uniform(0, longest / 50), random.uniform(0, longest / 10)))
            while time.monotonic() < until:
                self.look(out, old)
        program.kill()
        program.wait()
        self.count(self.look(out, old), new)

    def count(self, found, new):
        """How the round was ended."""
        if os.path.exists(new):
            self.beside += 1
            self.parts += read(new) != self.rescued
            os.remove(new)
        self.old += found != self.rescued
        self.new += found == self.rescued


def main(words):
    rounds = Rounds(read(words[1]), read(words[2]), words[3:])
    with tempfile.TemporaryDirectory() as room:
        began = time.monotonic()
        made = os.path.join(room, "made")
        subprocess.run([*rounds.command, words[1], os.path.join(room, "new"), made], stdout=subprocess.DEVNULL, check=True)
        longest = time.monotonic() - began
        if read(made) != rounds.rescued:
            print("end_rescue: the program that is left alone does not make the new file")
            return 1
        for number in range(int(words[0])):
            rounds.run(room, number, longest)
    print(f"end_rescue: ended {words[0]} times: OUT was the old file {rounds.old} times, the new one {rounds.new} times; the new one was "
          f"beside it {rounds.beside} times, not yet whole {rounds.parts} times; {rounds.looks} looks meanwhile")
    if not rounds.beside or not rounds.new:
        print("end_rescue: the rounds show nothing: none was ended with the new file beside OUT, or none after")
        return 1
    return 1 if rounds.faults else 0


if __name__ == "__main__":
    sys.exit(main(sys.argv[1:]))
