"""typed.py: uses of the Python package that a checker of types must take, and wrong ones that it must
refuse. It is checked, and not run; tests/library/bindings/run says how.
"""

import fcanon
from fcanon import Answer, Board, Command, Error, Game, Passage, Printed, import_text, run


def tell(command: Command, game: Game) -> Printed:
    board = Board.deal(1, game)
    canonical, passage = board.canonicalize()
    back: Passage = Passage.from_bytes(bytes(passage), board.game)
    assert Board.from_bytes(bytes(board), board.game) == board
    assert min(board, canonical) <= board and max(back, passage) >= back
    try:
        board.play("9a")
    except Error as error:
        assert error.answer == Answer.NO_MOVE and error.place is None
    made = run(command, str(board), game, format="json", any_size=True)
    made = import_text(bytearray(run("show", memoryview(made.text)).said), lines="rows")
    status: int = made.status
    print(fcanon.__version__, status, fcanon.COMMANDS[0], fcanon.GAMES.index("eight_off"))
    return made


def wrong() -> None:
    run("swim", "")  # type: ignore[arg-type]
    run("show", 7)  # type: ignore[arg-type]
    run("table", "", format="verse")  # type: ignore[arg-type]
    import_text("", lines="knots")  # type: ignore[arg-type]
    Board.deal(1, "golf")  # type: ignore[arg-type]
    Board.deal(1).play(3)  # type: ignore[arg-type]
