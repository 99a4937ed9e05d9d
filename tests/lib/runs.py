"""Runs of a program that is loaded once. Each is a process of its own, which begins where the loader has done its work.

So a run costs a fifth of one that is loaded anew. What makes them is runs.c: `cc` compiles it, and it is loaded into the
program before its libraries.
"""

import os
import struct
import subprocess
import tempfile
import threading
from array import array
from concurrent.futures import ThreadPoolExecutor
from functools import lru_cache
from pathlib import Path
from typing import NamedTuple

SOURCE = Path(__file__).resolve().with_suffix(".c")
GREETING = b"a program that runs as often as it is asked to\n"
REQUEST, ANSWER = struct.Struct("7I"), struct.Struct("i3I")


class Ended(NamedTuple):
    status: int  # or the signal that ended it, below 0: SIGALRM where it does not end in 300 seconds
    printed: bytes
    said: bytes


def side_by_side():
    """As many threads as there are processors."""
    return ThreadPoolExecutor(len(os.sched_getaffinity(0)))


def cut(text, most):
    return [text[at:at + most] for at in range(0, len(text), most)]


def whole(text):
    return cut(text, 60_000)


class Runs:
    """The runs of a program, which each thread has made by a process of its own; those end with the `with`."""

    def __init__(self, program, *sources):
        self.program, self.own, self.makers = program, threading.local(), []
        self.known = lru_cache(1_000)(lambda words, text: self.run(words, whole(text)))
        self.room = tempfile.TemporaryDirectory(prefix="fcanon-runs-")
        self.tool = f"{self.room.name}/runs.so"
        words = ["cc", "-O2", "-Wall", "-Wextra", "-Werror", "-shared", "-fPIC", "-o", self.tool]
        subprocess.run([*words, SOURCE, *sources], check=True)

    def __enter__(self):
        return self

    def __exit__(self, *_):
        for maker in self.makers:
            maker.communicate()
        self.room.cleanup()

    def maker(self):
        """The process that makes the runs of this thread."""
        if not hasattr(self.own, "maker"):
            surroundings = {**os.environ, "LD_PRELOAD": self.tool, "LD_BIND_NOW": "1"}
            self.own.maker = subprocess.Popen([self.program], stdin=subprocess.PIPE, stdout=subprocess.PIPE, env=surroundings)
            self.makers.append(self.own.maker)
            if self.read(len(GREETING)) != GREETING:
                raise SystemExit(f"runs.c is not loaded into {self.program}")
        return self.own.maker

    def read(self, size):
        text = self.own.maker.stdout.read(size)
        if len(text) != size:
            raise SystemExit(f"what makes the runs of {self.program} ended")
        return text

    def run(self, words, pieces):
        """Runs the program with these words. Standard input is a socket of which each read takes one of the pieces."""
        return self.made(words, pieces)[0]

    def run_whole(self, words, text):
        """The same, where each read takes all that is left; what was run so not long ago is not run again."""
        return self.known(tuple(words), text)

    def run_failing(self, words, text):
        """The same, where a read fails after this text: standard input is the master of a terminal, of which the other end is
        closed then.
        """
        return self.made(words, [text], is_at_terminal=True)[0]

    def run_refused(self, words, pieces, request, is_for_all_later=False):
        """The same as `run`, where the request for memory of this number is refused, by refuse.c, which must be a source.

        Gives also how many requests there were.
        """
        return self.made(words, pieces, request, is_for_all_later)

    def made(self, words, pieces, refused=0, is_for_all_later=False, is_at_terminal=False):
        maker, text = self.maker(), b"".join(pieces)
        given = b"".join(word.encode() + b"\0" for word in words)
        numbers = REQUEST.pack(is_at_terminal, refused, is_for_all_later, len(words), len(given), len(pieces), len(text))
        maker.stdin.write(b"".join([numbers, given, array("I", map(len, pieces)).tobytes(), text]))
        maker.stdin.flush()
        status, asked, printed, said = ANSWER.unpack(self.read(ANSWER.size))
        return Ended(status, self.read(printed), self.read(said)), asked
