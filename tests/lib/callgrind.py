"""Instructions of a program, as valgrind's callgrind counts them.

The program has no environment but what it is given, and nothing is counted before `main`: so a count is the same each time.
Libc's functions are counted as it has them for this processor.
"""

import re
import shutil
import subprocess
import tempfile
from collections import Counter

COUNTING = ["valgrind", "--tool=callgrind", "--toggle-collect=main", "--compress-strings=no", "--compress-pos=no"]


def is_here():
    return shutil.which("valgrind") is not None


def run(words, given, counts, env):
    """What callgrind says of a run on this file; what it counts goes to another. The status must be 0, or 1 as where an input is
    refused."""
    counting = [shutil.which("valgrind"), *COUNTING[1:], f"--callgrind-out-file={counts}", *words]
    with open(given, "rb") as text:
        ended = subprocess.run(counting, stdin=text, stdout=subprocess.DEVNULL, stderr=subprocess.PIPE, env=env)
    if ended.returncode not in (0, 1):
        raise SystemExit(f"{' '.join(map(str, words))} ends with status {ended.returncode}: {ended.stderr[-1000:]}")
    return ended.stderr


def instructions(words, given, env=None):
    """The instructions of a run on this file, in these surroundings."""
    return int(re.search(rb"Collected : (\d+)", run(words, given, "/dev/null", env or {}))[1])


def instructions_of_calls(words, given, caller):
    """What one call of each function that this one calls takes on average, by its name."""
    with tempfile.NamedTemporaryFile("r") as counts:
        run(words, given, counts.name, {})
        return averages(iter(counts), caller)


def averages(lines, caller):
    """A line `calls=` has how many calls there were, and the line after it, as its second number, what they took."""
    times, taken = Counter(), Counter()
    inside = called = None
    for line in lines:
        key, _, value = line.rstrip("\n").partition("=")
        if key == "fn":
            inside = value
        elif key == "cfn":
            called = value
        elif key == "calls" and inside == caller:
            times[called] += int(value.split()[0])
            taken[called] += int(next(lines).split()[1])
    return {name: taken[name] / times[name] for name in times}
