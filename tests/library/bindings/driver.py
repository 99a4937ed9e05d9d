"""driver.py: the Python package which does what each line of standard input asks for.

tests/library/bindings/run says how.
"""

import pickle
import sys

from fcanon import (
    GAMES, Answer, Board, Error, Passage, canonicalize_all, canonicalize_all_with_passages, find_flaw, hash_all,
)


def line_of(board):
    return str(board).replace("\n", "|")


def tell_board(board):
    canonical, passage = board.canonicalize()
    other = Board(str(board), board.game)
    assert board == other and hash(board) == hash(other) and bytes(board) == bytes(other)
    assert canonical == canonical.canonical() == board.canonical() and len({board, other}) == 1
    assert board.passage_to(canonical) == passage == passage.inverse().inverse()
    assert Board.from_bytes(bytes(board), board.game) == board
    keys = canonicalize_all(bytes(board) + bytes(canonical), board.game)
    assert keys == bytes(canonical) * 2
    both = bytes(board) + bytes(canonical)
    passages = bytes(passage) + bytes(canonical.canonicalize()[1])
    assert canonicalize_all_with_passages(both, board.game) == (keys, passages)
    assert hash_all(both, board.game) == board.canonical_hash() * 2
    assert pickle.loads(pickle.dumps((board, passage))) == (board, passage)
    print("show", line_of(board))
    print("canon", line_of(canonical))
    print("#", passage)
    print("capacity", *(board.capacity(column) for column in range(1, 9)))
    print("key", bytes(canonical).hex(), board.canonical_hash().hex())
    print("symmetries", *board.symmetries())
    assert passage.image(board) == canonical and passage.inverse().image(canonical) == board
    assert passage.then(passage.inverse()).image(board) == board
    print(" ".join(["moves", *board.moves(), *board.run_moves()]))
    children = board.children()
    assert all(board.child(move)[0] == child for move, child in children)
    print(" ".join(["children", *(move for move, _ in children)]))
    flaw = find_flaw(bytes(canonical), board.game)
    assert board.is_unsolvable(bytes(canonical)) == (flaw is None) and find_flaw(keys, board.game) == (Answer.NOT_ASCENDING, 1, None)
    print("closed", "yes" if flaw is None else f"{flaw[0]} {flaw[1]} {flaw[2] or '-'}")


def verdict(board, moves, play):
    for index, move in enumerate(moves):
        try:
            if play is Board.play:
                assert board.child(move) == play(board, move).canonicalize()
            board = play(board, move)
        except Error as error:
            return f"illegal {index} {error.reason}"
    return f"{'wins' if board.is_won else 'legal'} {len(moves)}"


def expanded(board, moves):
    found = []
    for move in moves:
        found += board.expand(move)
        board = board.play_run(move)
    return found


def tell_list(board, mark, moves):
    runs = mark == ">>"
    canonical, passage = board.canonicalize()
    images = [(passage.carry_run if runs else passage.carry)(move) for move in moves]
    play = Board.play_run if runs else Board.play
    got = verdict(board, moves, play)
    assert got == verdict(canonical, images, play)
    print(" ".join([mark, *images]))
    print(got)
    if runs and not got.startswith("illegal"):
        print(" ".join([">", *expanded(board, moves)]))


def numbers(seed):
    """Numbers by chance, which each language draws alike: xorshift of 32 bits."""
    while True:
        seed ^= seed << 13 & 0xFFFFFFFF
        seed ^= seed >> 17
        seed ^= seed << 5 & 0xFFFFFFFF
        yield seed


def damaged(draw, given):
    """Bytes of which up to two are others."""
    data = bytearray(given)
    for _ in range(next(draw) % 3):
        at = next(draw) % len(data)
        data[at] = next(draw) % 60
    return bytes(data)


def answer_to(call, *given):
    try:
        call(*given)
    except Error as error:
        return error.answer
    return Answer.DONE


def tell_answers(seed, rounds):
    """A sum of what is answered to damaged boards and passages, and to moves by chance."""
    draw, total, signs = numbers(seed), 0, "12345678abcdefgkhX \u00e9"
    for _ in range(rounds):
        game = GAMES[next(draw) % len(GAMES)]
        board = Board.deal(next(draw) % 1000 + 1)
        asked = [(Board.from_bytes, damaged(draw, bytes(board)), game)]
        asked += [(Passage.from_bytes, damaged(draw, bytes(board.canonicalize()[1])), game)]
        move = signs[next(draw) % len(signs)] + signs[next(draw) % len(signs)]
        asked += [(board.play, move), (board.play_run, move + "v3")]
        for it in asked:
            total = (31 * total + answer_to(*it)) % 2**32
    print("answers", total)


def made(what, game, given):
    if what == "boards":
        canonicalize_all(bytes.fromhex(given), GAMES[int(game)])
    if what == "board":
        return Board(bytes.fromhex(given), GAMES[int(game)])
    if what == "bytes":
        return Board.from_bytes(bytes.fromhex(given), GAMES[int(game)])
    return Board.deal(int(given), GAMES[int(game)])


board = None
for line in sys.stdin.read().splitlines():
    what, *words = line.split(" ")
    try:
        if what in (">", ">>"):
            tell_list(board, what, words)
        elif what == "answers":
            tell_answers(*map(int, words))
        else:
            board = made(what, *words)
            print("made")
            tell_board(board)
    except Error as error:
        print("refused", pickle.loads(pickle.dumps(error)))
