"""commands.py: answers each case of standard input, by the Python package; tests/lib/cases.py says how."""

import sys

import fcanon


def answer_to(task, game, form, any_size, text):
    given = bytes.fromhex(text)
    try:
        if task == "import":
            done = fcanon.import_text(given, game, lines="unsaid" if form == "lines" else form)
        else:
            done = fcanon.run(task, given, game, format=form, any_size=any_size == "1")
    except fcanon.Error as error:
        return 3, "-", f"fcanon: {error}\n".encode().hex()
    return done.status, done.text.hex(), done.said.hex()


for line in sys.stdin:
    print(*answer_to(*line.rstrip("\n").split(" ")))
