"""Cases: a command, or an import, over a text in memory; what the rows want of them, and what the program does.

Who answers them takes each as a line: command, game, format, 1 for any size, else 0, and the text. It answers by a line: the
status, what is printed, or `-` where a run gives up, and what is said. Texts are in hexadecimal digits.
"""

import argparse
import random
import subprocess
from typing import NamedTuple

from lib.headers import GAMES, LINES, TASKS
from lib.paths import EXAMPLES
from lib.report import same
from lib.row import rows
from lib.runs import Ended, Runs

COMMANDS = [*TASKS, "import"]
LARGE = 200_000  # bytes: input that its own row is tried with
# Seven lines of seven cards, which may be columns or rows.
DECK = [rank + suit for rank in "A23456789TJQK" for suit in "CDHS"]
SQUARE = "\n".join([f"FC: {' '.join(DECK[49:])}", *(" ".join(DECK[at:at + 7]) for at in range(0, 49, 7)), ""]).encode()
FORMATS = {"lines": [], "header": ["--header"], "json": ["--json"], "columns": ["--columns"], "rows": ["--rows"]}


class Case(NamedTuple):
    task: str
    game: str
    form: str
    any_size: bool
    text: bytes

    def words(self):
        return [self.task, "--variant", self.game, *FORMATS[self.form], *["--any-size"] * self.any_size]

    def lines(self):
        """What an import says that lines are."""
        return self.form if self.form in LINES else "unsaid"

    def line(self):
        return f"{self.task} {self.game} {self.form} {int(self.any_size)} {self.text.hex()}\n"


def options():
    parser = argparse.ArgumentParser(add_help=False, exit_on_error=False)
    parser.add_argument("--variant", default="freecell", choices=GAMES)
    parser.add_argument("--any-size", action="store_true")
    parser.add_argument("--header", action="store_true")
    parser.add_argument("--json", action="store_true")
    parser.add_argument("--columns", action="store_true")
    parser.add_argument("--rows", action="store_true")
    return parser


def cases_of_rows():
    """The rows that a call can be asked for, each as a case."""
    parser = options()
    for row in rows():
        if row.words[:1] and row.words[0] in COMMANDS and row.status != 2 and len(row.stdin) <= LARGE:
            known, unknown = parser.parse_known_args(row.words[1:])
            form = next((it for it in ("json", "header", "columns", "rows") if getattr(known, it)), "lines")
            if not unknown:
                yield row, Case(row.words[0], known.variant, form, known.any_size, row.stdin)


def changed(chance, texts):
    text = bytearray(chance.choice(texts))
    for _ in range(chance.randint(1, 6)):
        at = chance.randrange(len(text) + 1)
        sign = bytes(chance.choices(b"@#>: \n\tAKQ2345CDHS-\xff\0", k=1))
        text[at:at + chance.choice((0, 1, 1, 30))] = chance.choice([sign, b"", chance.choice(texts)[:300]])
    return bytes(text)


def cases(most, many):
    """Each command on texts of at most so many bytes, with a game and a format by chance, and on so many with changes."""
    chance = random.Random(5)
    texts = {row.stdin for row in rows()} | {it.read_bytes() for it in EXAMPLES.glob("*.*")}
    texts = sorted(it for it in texts if len(it) <= most)
    tried = [(task, text) for text in texts for task in COMMANDS]
    tried += [(chance.choice(COMMANDS), changed(chance, texts)) for _ in range(many)]
    yield from (Case("import", "freecell", form, False, SQUARE) for form in ("lines", "columns", "rows"))
    forms = {"table": ["lines", "header", "json"], "count": ["lines", "json"], "import": ["lines", "columns", "rows"]}
    for task, text in tried:
        is_any = task != "import" and chance.random() < 0.2
        yield Case(task, chance.choice(GAMES), chance.choice(forms.get(task, ["lines"])), is_any, text)


def by_program(program, tried):
    with Runs(program) as runs:
        for case in tried:
            ended = runs.run_whole(case.words(), case.text)
            yield ended._replace(printed=None) if ended.status == 3 else ended


def by_driver(words, tried, **more):
    """What a driver, which these words start, answers to the cases."""
    given = "".join(map(Case.line, tried))
    ended = subprocess.run(words, input=given, text=True, stdout=subprocess.PIPE, check=True, **more)
    for line in ended.stdout.splitlines():
        status, output, said = line.split(" ")
        yield Ended(int(status), None if output == "-" else bytes.fromhex(output), bytes.fromhex(said))


def wanted(program, others):
    """Each case of a row, and each of the others: how it is named, how it must end, and the case."""
    for row, case in cases_of_rows():
        yield row.name, Ended(row.status, None if row.status == 3 else row.stdout, row.stderr), case
    for case, ended in zip(others, by_program(program, others)):
        yield f"{' '.join(case.words())} of {case.text[:200]}", ended, case


def compared_with(way, named, answered):
    """Whether what is answered, one way, is what is wanted."""
    for (name, ended, _), found in zip(named, answered, strict=True):
        ended = ended._replace(said=found.said) if ended.said is None else ended
        yield f"{way}: {name}", same("a run", ended, found)
