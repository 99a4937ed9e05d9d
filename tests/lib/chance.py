"""Collections made by chance: dealt boards and boards near the end of play, in many spellings, with lists; and damaged ones."""

from lib.boards import BAKERS_GAME, COLUMNS, EIGHT_OFF, FREECELL, RANKS, SUITS, Board, Passage, card_text, carried, renamings

GAMES = [FREECELL, BAKERS_GAME, EIGHT_OFF]


def board_by_chance(chance, game):
    top = chance.choice([0, 3, 11, 12, 13])
    heights = tuple(max(0, top - chance.randrange(2)) for _ in SUITS)
    left = [card for card in range(52) if card // 4 >= heights[card % 4]]
    chance.shuffle(left)
    count = min(len(left), chance.choice([0, 0, 1, 2, len(game.cells)]))
    cells = (*left[:count], *[None] * (len(game.cells) - count))
    return Board(heights, cells, tuple(tuple(left[count + place::8]) for place in range(8)))


def solution(game, board):
    """Moves home, as long as some card can go."""
    heights, cells, columns = list(board.heights), list(board.cells), [list(column) for column in board.columns]
    moves = []
    while True:
        tops = [(COLUMNS[at], column[-1]) for at, column in enumerate(columns) if column]
        tops += [(game.cells[at], card) for at, card in enumerate(cells) if card is not None]
        home = [(pile, card) for pile, card in tops if card // 4 == heights[card % 4]]
        if not home:
            return moves
        pile, card = home[0]
        moves.append(pile + "h")
        heights[card % 4] += 1
        if pile in COLUMNS:
            columns[COLUMNS.index(pile)].pop()
        else:
            cells[game.cells.index(pile)] = None


def image(chance, game, board):
    """An equivalent board."""
    orders = (tuple(chance.sample(range(count), count)) for count in (8, len(game.cells)))
    return carried(Passage(chance.choice(renamings(game)), *orders), board)


def spelled_board(chance, board):
    spelled = [str.upper, str.lower, lambda card: card.replace("T", "10")][chance.randrange(3)]
    heights = " ".join(f"{suit}-{('0' + RANKS)[height]}" for suit, height in zip(SUITS, board.heights))
    cells = " ".join("-" if card is None else spelled(card_text(card)) for card in board.cells)
    lines = [chance.choice(["", ": "]) + " ".join(spelled(card_text(card)) for card in column)
             for column in board.columns]
    named = [f"Foundations: {heights}", f"FC: {cells}"]
    return "".join(line + "\n" for line in (named + lines if chance.randrange(2) else lines + named))


def list_line(chance, game, board):
    sign = chance.choice([">", ">", ">>"])
    if chance.randrange(2):
        return " ".join([sign, *solution(game, board)]) + "\n"
    piles = COLUMNS + game.cells + "h"
    moves = [chance.choice(piles) + chance.choice(piles) for _ in range(chance.randrange(8))]
    if sign == ">>":
        moves += [chance.choice(COLUMNS) + chance.choice(COLUMNS) + chance.choice(["", "v1", "V2", "vd"])
                  for _ in range(chance.randrange(4))]
        chance.shuffle(moves)
    return sign + " " * chance.randrange(3) + " ".join(moves) + chance.choice(["\n", "\r\n", "  \n"])


def name_by_chance(chance, number):
    """What a header has after its game: nothing, a name that others have, or one of any signs, also one that is too long or
    has a byte that is in no name."""
    signs = "".join(chr(chance.randrange(33, 127)) for _ in range(chance.choice([1, 2, 8, 64, 65])))
    return chance.choice(["", f" n{number}", " again", f" {signs}", f" {signs}", f" {signs[0]}{chr(chance.randrange(256))}{signs[1:]}"])


def collection(chance):
    boards, texts = [], []
    for number in range(chance.randrange(1, 9)):
        if boards and chance.randrange(3):
            game, board = chance.choice(boards)
            board = image(chance, game, board)
        else:
            game = chance.choice(GAMES)
            board = board_by_chance(chance, game)
        boards.append((game, board))
        texts.append(f"@ {game.word}{name_by_chance(chance, number)}\n" + spelled_board(chance, board))
        texts.extend(list_line(chance, game, board) for _ in range(chance.randrange(3)))
        texts.append(chance.choice(["", "", "# a comment\n", "\n"]))
    if chance.randrange(4) == 0:
        texts[0] = texts[0].split("\n", 1)[1]
    return "".join(texts).encode("latin-1")


def damaged(chance, text):
    """The text with some bytes replaced, lines doubled, or its end left out."""
    changed = bytearray(text)
    for _ in range(chance.choice([0, 0, 1, 2, 5])):
        at = chance.randrange(len(changed) + 1)
        kind = chance.randrange(5)
        if kind == 0:
            changed[at:at] = bytes([chance.choice(b"@>#:\n\r\t -hHA1\x00\xff")])
        elif kind == 1:
            del changed[at:at + 1]
        elif kind == 2:
            changed[at:at + 1] = bytes([chance.randrange(256)])
        elif kind == 3:
            lines = bytes(changed).splitlines(keepends=True)
            if lines:
                line = chance.choice(lines)
                place = changed.find(line)
                changed[place:place] = line
        else:
            del changed[at:]
    return bytes(changed)


def pieces_of(chance, text):
    if chance.randrange(4) == 0:
        return [text[at:at + 1] for at in range(len(text))]
    cuts = sorted(chance.randrange(len(text) + 1) for _ in range(chance.randrange(1, 6)))
    bounds = [0, *cuts, len(text)]
    return [text[start:end] for start, end in zip(bounds, bounds[1:]) if start < end]
