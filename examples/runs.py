"""runs.py: prints what a command of fcanon prints of standard input, and ends as it does, without the
program.

    python3 runs.py group < positions.collection
"""

import sys

import fcanon


def main(words):
    if len(words) != 1 or words[0] not in [*fcanon.COMMANDS, "import"]:
        print("usage: runs.py COMMAND < FILE", file=sys.stderr)
        return 2
    text = sys.stdin.buffer.read()
    try:
        done = fcanon.import_text(text) if words[0] == "import" else fcanon.run(words[0], text)
    except fcanon.Error as error:
        print(f"fcanon: {error}", file=sys.stderr)
        return 3
    sys.stdout.buffer.write(done.text)
    sys.stderr.buffer.write(done.said)
    return done.status


if __name__ == "__main__":
    sys.exit(main(sys.argv[1:]))
