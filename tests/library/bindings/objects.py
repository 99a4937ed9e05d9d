"""objects.py: what objects of the Python package refuse and keep. It prints a line for each fault.

tests/library/bindings/run says how it is run.
"""

import ast
import inspect
import multiprocessing
import pickle
import re
from array import array
from concurrent.futures import ThreadPoolExecutor
from pathlib import Path

import fcanon
from fcanon import (
    COMMANDS, GAMES, Answer, Board, Error, Passage, canonicalize_all, canonicalize_all_with_passages,
    hash_all, import_text, run,
)

BOARD = Board.deal(1)
PASSAGE = BOARD.canonicalize()[1]
TWO = bytes(BOARD) * 2
BATCHES = [canonicalize_all, canonicalize_all_with_passages, hash_all]


def shaped(*shape):
    return memoryview(TWO).cast("B", shape)


# What must be refused, the error, and what its words must have.
REFUSED = [
    ("a board and a half", canonicalize_all, [TWO[:108]], ValueError, r"\(108,\)"),
    *((f"boards as columns, {it.__name__}", it, [shaped(72, 2)], ValueError, r"\(72, 2\)")
      for it in BATCHES),
    *((f"a second board that is none, {it.__name__}", it, [TWO[:72] + b"\1" * 72], Error, "no board at 1")
      for it in BATCHES),
    ("items of 8 bytes", canonicalize_all, [array("Q", TWO)], ValueError, "items of 8 bytes"),
    ("no buffer", canonicalize_all, [[BOARD]], TypeError, "not 'list'"),
    ("a number as a text", Board, [10**9], TypeError, "not 'int'"),
    ("a str as bytes", Board.from_bytes, ["K" * 72], TypeError, "not 'str'"),
    ("another game of a board", setattr, [BOARD, "game", "eight_off"], AttributeError, "game"),
    ("another game of a passage", setattr, [PASSAGE, "game", "eight_off"], AttributeError, "game"),
    ("a move that is no str", BOARD.play, [31], TypeError, "str"),
    ("a passage that is none", Passage.from_bytes, [b"\1" * 20], Error, "no passage"),
    ("an order of a board and a passage", max, [BOARD, PASSAGE], TypeError, "not supported"),
    ("a command that is none", run, ["swim", ""], ValueError, "one of show, .*, not 'swim'"),
    ("a format that is none", lambda: run("table", "", format="verse"), [], ValueError, "lines, header, json"),
    ("a game of a command that is none", run, ["show", "", "golf"], Error, "no such game"),
    ("a game of an import that is none", import_text, ["", "golf"], Error, "no such game"),
    ("lines that are none", lambda: import_text("", lines="knots"), [], ValueError, "columns, rows"),
    ("a text that is a number", run, ["show", 7], TypeError, "int"),
    ("more than 16 MiB", run, ["show", b"\n" * (2**24 + 1)], Error, "input too large"),
]


def is_refused(call, given, error, words):
    try:
        call(*given)
    except error as it:
        return re.search(words, str(it))
    except Exception as it:  # another one is a fault
        print(repr(it))
    return False


def batches():
    """Bytes in any number of dimensions, and in any object, are the same boards."""
    for call in BATCHES:
        for given in (bytearray(TWO), shaped(2, 72), shaped(1, 2, 72), memoryview(TWO)):
            yield call.__name__, call(given) == call(TWO)
        yield f"{call.__name__} of none", call(b"") in (b"", (b"", b""))


def ordered():
    """Boards and passages have the order of their games, and then of their bytes."""
    boards = [Board.deal(number, game) for game in GAMES[:2] for number in range(1, 30)]
    for made in (boards, [board.canonicalize()[1] for board in boards]):
        keys = {it: (GAMES.index(it.game), bytes(it)) for it in made}
        yield "an order", sorted(made) == sorted(made, key=keys.get)
        yield "a first one", min(made) <= max(made) and not min(made) > min(made) and made[0] >= made[0]


def commands():
    """What goes in and out of a run."""
    text = f"{BOARD}@ freecell again\n{BOARD}@ freecell none\nKC\n"
    for given in (text, text.encode(), bytearray(text.encode()), memoryview(text.encode())):
        done = run("unique", given)
        yield "a run", str(done).startswith(f"{BOARD}# refused none at ")
        yield "what it says, and its counts", (*done[1:], done.status) == (b"", 3, 1, 1)
    with ThreadPoolExecutor(4) as pool:
        many = list(pool.map(run, COMMANDS * 20, [text] * len(COMMANDS) * 20))
    yield "runs of threads", many == [run(command, text) for command in COMMANDS] * 20
    yield "an answer by its name", Answer.INPUT_TOO_LARGE == 13 and Error(13).reason == "input too large"


def pickled():
    """What goes to other processes and comes back."""
    for protocol in range(pickle.HIGHEST_PROTOCOL + 1):
        back = pickle.loads(pickle.dumps((BOARD, PASSAGE), protocol))
        yield f"protocol {protocol}", back == (BOARD, PASSAGE)
    with multiprocessing.Pool(1) as pool:
        try:
            pool.apply_async(Board, ["Found: H-X\n"]).get(timeout=300)
        except Error as error:
            yield "a pool", (error.reason, error.place) == ("bad foundation", 7)
        except multiprocessing.TimeoutError:
            yield "a pool, which hangs", False


def declared():
    """Each function of the package, each class and each method, with what its types say that it takes."""
    stubs = ast.parse(Path(fcanon.__file__).with_name("_calls.pyi").read_text())
    classes = [it for it in stubs.body if isinstance(it, ast.ClassDef) and hasattr(fcanon, it.name)]
    for place, body in [(fcanon, stubs.body), *((getattr(fcanon, it.name), it.body) for it in classes)]:
        for it in body:
            name = getattr(it, "name", "")
            called = place if name == "__new__" else getattr(place, name, None)
            if isinstance(it, ast.FunctionDef) and callable(called) and (called is place or not name.startswith("__")):
                takes = [word.arg for word in it.args.args if word.arg != "cls"]
                without = len(takes) - len(it.args.defaults)
                yield name, called, [*zip(takes, [inspect.Parameter.empty] * without + [word.value for word in it.args.defaults])]


def signatures():
    """What inspect shows of a function is what its types say."""
    found = [(name, takes, inspect.signature(called).parameters.values()) for name, called, takes in declared()]
    yield "as many functions", len(found) > 25
    for name, takes, parameters in found:
        yield f"the signature of {name}", takes == [(it.name, it.default) for it in parameters]


if __name__ == "__main__":
    for name, *it in REFUSED:
        if not is_refused(*it):
            print(f"it is not refused: {name}")
    for name, is_so in [*batches(), *pickled(), *ordered(), *commands(), *signatures()]:
        if not is_so:
            print(f"it is not so: {name}")
