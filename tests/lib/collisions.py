"""Boards whose hashes collide under the seed that everybody knows.

They are found here, by what the hasher of the toolchain computes. They are canonical, as `canon` must say. To group them takes the
program over twice as many instructions where the system gives no chance, so that the seed is the known one, as where a seed is
drawn: only who knows the seed can slow a run. Without valgrind or cc this is skipped by name.
"""

import shutil
import subprocess
import tempfile
from itertools import islice, permutations
from pathlib import Path

from lib import callgrind

BOARDS, PLACES = 280, 32  # so many boards have so many groups in the table, one of which is found by the lowest bits of a hash
TIMES = 2  # so many times the instructions, at least
BEGUN, FACTOR, WORD = 0x243F6A8885A308D3, 0x9E3779B97F4A7C15, 2**64 - 1  # of FoldHasher
EIGHT = FACTOR ^ 2 * 8  # the factor for eight bytes, as a seed and the number of a game have
# Under each other renaming the line of the foundations is greater. The cards that are left are in the last column.
HEIGHTS, CARDS = "9QJT", ["TH", "JH", "QH", "KH", "KC", "QD", "KD", "JS", "QS", "KS"]
BOARD = "Foundations: H-9 C-Q D-J S-T\nFreecells: - - - -\n" + 7 * ":\n" + ": {}\n"
NO_CHANCE = "int getentropy(void *to, unsigned long size) { (void)to; (void)size; return -1; }\n"


def folded(a, b):
    product = a * b
    return product & WORD ^ product >> 64


def word(key, at):
    return int.from_bytes(key[at:at + 8], "little")


def place_of(rank):
    """The place of a rank in the order of printed letters."""
    return "23456789AJKQT".index(rank)


def hashes():
    """The hash of each board under the seed 0, and its last column. A key has heights, cells, and columns with their ends."""
    codes = {4 * place_of(card[0]) + "CDHS".index(card[1]) + 1: card for card in CARDS}
    front = bytes([*(place_of(rank) + 1 for rank in HEIGHTS), *(4 + 7) * [0]])
    state = folded(folded(BEGUN, EIGHT), EIGHT)
    for first in permutations(codes, 3):
        key = front + bytes(first)
        before = folded(word(key, 0) ^ state + 26, word(key, 8) ^ FACTOR) ^ word(key, 10)
        for last in permutations(codes.keys() - {*first}):
            found = folded(before, int.from_bytes(last, "little") ^ FACTOR)
            yield (found ^ found >> 32) & 0xFFFFFFFF, map(codes.get, first + last)


def colliding():
    """Boards of one place in the table, whose keys are compared since the highest bytes of their hashes are the same too."""
    wanted = None
    for found, column in hashes():
        alike = found % PLACES, found >> 24
        wanted = wanted or alike
        if alike == wanted:
            yield BOARD.format(" ".join(column))


def tried(program):
    """Gives what is tried, and what is not as it must be in it."""
    if not callgrind.is_here() or not shutil.which("cc"):
        print("boards whose hashes collide: skipped, valgrind or cc is not here")
        return
    records = [f"@ freecell n{number}\n{board}" for number, board in enumerate(islice(colliding(), BOARDS), 1)]
    with tempfile.TemporaryDirectory(prefix="fcanon-collisions-") as room:
        given, tool = Path(room) / "collection", Path(room) / "no-chance.so"
        given.write_text("".join(records))
        wanted = "".join(f"{record}# renaming CDHS columns 12345678 cells abcd\n" for record in records)
        printed = subprocess.run([program, "canon"], input=given.read_text(), capture_output=True, text=True).stdout
        yield "boards that are canonical", [] if printed == wanted else ["canon prints others"]
        subprocess.run(["cc", "-shared", "-fPIC", "-x", "c", "-", "-o", tool], input=NO_CHANCE, text=True, check=True)
        drawn, known = (callgrind.instructions([program, "group"], given, env) for env in ({}, {"LD_PRELOAD": tool}))
        yield "a seed that is drawn", [] if TIMES * drawn < known else [f"{drawn} instructions, and {known} with the known one"]
