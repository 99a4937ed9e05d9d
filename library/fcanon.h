/* fcanon.h: canonical boards of FreeCell, Baker's Game and Eight Off, and moves carried to them.
 *
 * What each call answers is proved; docs/LIBRARY.md begins with a first program.
 *
 * Answers. A call answers 0 (FCANON_DONE) if and only if it did what is said here, and each other
 * answer if and only if its reason holds. Then it has written nothing, except the place of a fault
 * (fcanon_read), the keys before it (fcanon_keys), and the place and the move of fcanon_closed. Of
 * several reasons it answers the first, in the order of the arguments.
 *
 * Pointers. A pointer may be null only before a size of 0: that of a text, of boards of fcanon_keys, of
 * keys, and of room for moves, runs, keys and child hashes. What a call writes must not overlap anything
 * else that is handed to that call: only fcanon_play and fcanon_play_run work in place on their board, fcanon_carry and
 * fcanon_carry_run on their move, and fcanon_move_sums on its sums.
 * size_t, uint32_t and sums must be aligned as C aligns them; boards, passages, moves, hashes and texts may be
 * anywhere. None of this is tested, as with memcpy. What the bytes are is tested: no bytes of a board,
 * a passage, a move or a text are forbidden, but those of the board of fcanon_known_child_hashes.
 *
 * Threads. A call takes no memory and keeps nothing of what it is given. Calls of several threads
 * may run at once, as long as none writes what another uses.
 *
 * What is stable. A later version may add calls and answers, and then FCANON_VERSION is greater.
 * As long as the first part of the release is the same, and with it the SONAME, no call, type or number
 * of this header changes its meaning.
 * Nor do the bytes of boards, keys, hashes of both kinds, passages and moves: they may be kept in files.
 * The words of answers may change.
 */
#ifndef FCANON_H
#define FCANON_H

#include <stddef.h>
#include <stdint.h>
#include <string.h>

/* The release of fcanon that this header is of, as text and as number: 10,000 times the first part,
 * 100 times the second and the third. Each release has its own; the library does not answer it. */
#define FCANON_RELEASE "@RELEASE@"
#define FCANON_RELEASE_NUMBER @RELEASE_NUMBER@

/* The version of the calls, 100 times the first part of the release and the second, of which one is greater
 * where a call was added; fcanon_version() answers that of the library. */
#define FCANON_VERSION 100

/* What compilers and linkers are told of the calls. A program may define two of these before this header:
 * FCANON_EXPORT, as __declspec(dllimport), and FCANON_CHECKED as nothing, where it leaves answers unread
 * that it knows to be 0. A C file that defines FCANON_EXPORT as static and includes fcanon-portable.c has
 * the calls for itself, and no linker sees them. */
#ifdef __GNUC__
#define FCANON_ATTRIBUTES(list) __attribute__(list)
#else
#define FCANON_ATTRIBUTES(list)
#endif
#ifndef FCANON_EXPORT
#ifdef _WIN32
#define FCANON_EXPORT
#else
#define FCANON_EXPORT FCANON_ATTRIBUTES((visibility("default")))
#endif
#endif
#ifndef FCANON_CHECKED
#define FCANON_CHECKED FCANON_ATTRIBUTES((warn_unused_result))
#endif
/* A call none of whose pointers is null, and one of which those in these places are not. */
#define FCANON_CALL FCANON_EXPORT FCANON_CHECKED FCANON_ATTRIBUTES((nonnull))
#define FCANON_CALL_NONNULL(...) FCANON_EXPORT FCANON_CHECKED FCANON_ATTRIBUTES((nonnull(__VA_ARGS__)))

#ifdef __cplusplus
extern "C" {
#endif

/* The games. The program's word for each is its name here, in lower case. */
enum fcanon_game {
    FCANON_FREECELL,    /* FreeCell: 4 cells; any card fills an empty column; built in alternating colours */
    FCANON_BAKERS_GAME, /* Baker's Game: 4 cells; any card fills an empty column; built in suit */
    FCANON_EIGHT_OFF    /* Eight Off: 8 cells; kings alone fill an empty column; built in suit */
};

/* A card is 1 to 52: 4 * (rank - 1) + suit + 1, with ranks 1 (ace) to 13 (king) and the suits 0
 * clubs, 1 diamonds, 2 hearts, 3 spades. 0 is no card. */
#define FCANON_CARD(rank, suit) (4 * ((rank) - 1) + (suit) + 1)
#define FCANON_RANK(card) (((card) - 1) / 4 + 1)
#define FCANON_SUIT(card) (((card) - 1) % 4)

/* A board, 72 bytes without padding. Empty cells, cells past the game's, and all after the last card
 * are 0. A board has one run of 72 bytes and 72 bytes hold one board at most: so memcmp says whether
 * two boards are one, and the bytes of canonical boards may be hashed as they are. */
typedef struct fcanon_board {
    uint8_t heights[4]; /* how many cards are home, 0 to 13: clubs, diamonds, hearts, spades */
    uint8_t cells[8];   /* the cards in the cells: FreeCell and Baker's Game have four */
    uint8_t lengths[8]; /* how many cards each column has */
    uint8_t cards[52];  /* those of column 1, the last of them free to move, then of column 2, .. */
} fcanon_board;

/* A passage, 20 bytes: what clubs, diamonds, hearts and spades become, 0 to 3, and for each new place
 * from 0 the old place of the column and of the cell that comes there. Cells past the game's are 0. */
typedef struct fcanon_passage {
    uint8_t suits[4];
    uint8_t columns[8];
    uint8_t cells[8];
} fcanon_passage;

/* A move of one card, 2 bytes, in standard notation and lower case: '1' to '8' for columns, 'a' to
 * 'd' for cells (in Eight Off also e f g k), and 'h' for home, to which alone a card can go. */
typedef struct fcanon_move {
    uint8_t from, to;
} fcanon_move;

/* A move of several cards, 3 bytes: the last cards of a column to another, as many as count says, 1 to
 * 13. Where count is 0 they are as many as the ranks say, and to an empty column as many as can go. A
 * move of one card that touches a cell or home is one too, with count 0. */
typedef struct fcanon_run_move {
    uint8_t from, to, count;
} fcanon_run_move;

/* The sums of a board, 384 bytes: one for each renaming of suits that keeps the building rule, 8 in
 * FreeCell and 24 in the other games, in the ascending order of these, and 0 after them: in FreeCell a
 * search may keep the first 128 bytes alone. Each is in two words, the lower one first. */
typedef struct fcanon_class_sums {
    uint64_t sums[24][2];
} fcanon_class_sums;

/* A move of one card, and the hash of the class of the board after it, 18 bytes. */
typedef struct fcanon_child_hash {
    fcanon_move move;
    uint8_t hash[16];
} fcanon_child_hash;

/* What a card lies on, in place of the byte of a card: 1 to 52 is that card. */
#define FCANON_ON_FOOT 0  /* the foot of a column */
#define FCANON_ON_CELL 53 /* a cell */
#define FCANON_ON_HOME 54 /* a foundation */

#define FCANON_MOST_MOVES 49 /* a move of several cards is never more moves of one card than these */
#define FCANON_MOST_CHILDREN 272 /* a board never allows more moves of one card than these */
#define FCANON_MOST_RUN_MOVES 672 /* a board never allows more moves of several cards than these */

enum fcanon_answer {
    FCANON_DONE,
    FCANON_NO_GAME,    /* no game has this number */
    FCANON_NO_PASSAGE, /* the bytes hold no passage of the game */
    FCANON_NO_MOVE,    /* the bytes hold no move of the game */
    FCANON_NO_BOARD,   /* the bytes hold no board of the game, on which each card is once */
    FCANON_NO_OTHER,   /* those of the other board hold none */
    FCANON_APART,      /* no passage leads from the one board to the other */
    FCANON_NO_DEAL,    /* the game has no deal with this number */
    FCANON_NO_COLUMN,  /* no column has this digit */
    FCANON_NO_ROOM,    /* the moves are more than there is room for */
    /* why boards are not those of a closed list, by fcanon_closed; of two of them by fcanon_unsolvable */
    FCANON_NOT_CANONICAL = 16, /* a board is not its own key */
    FCANON_NOT_ASCENDING,      /* it is not above the one before it */
    FCANON_WON,                /* it is won */
    FCANON_OPEN,               /* a move leads to a board whose key is not among them */
    FCANON_NOT_CLOSED,         /* they are not those of a closed list */
    FCANON_NOT_AMONG,          /* they are, but the board's key is not among them */
    /* why the game refuses a move; of several reasons the first */
    FCANON_SAME_PILE = 32,
    FCANON_EMPTY_SOURCE,
    FCANON_TARGET_TAKEN,
    FCANON_KINGS_ONLY,
    FCANON_NOT_BUILDING,
    FCANON_NOT_NEXT,
    FCANON_NO_RUN,        /* this and the next two of moves of several cards alone */
    FCANON_OVER_CAPACITY,
    FCANON_WRONG_COUNT,
    /* what is at fault in a text, by fcanon_read */
    FCANON_REPEATED_LINE = 64,
    FCANON_TOO_MANY_COLUMNS,
    FCANON_TOO_MANY_CELLS,
    FCANON_BAD_CARD,
    FCANON_BAD_FOUNDATION,
    FCANON_REPEATED_CARD,
    /* that it lacks a card: an answer for each, from the ace of clubs to the king of spades */
    FCANON_FIRST_MISSING_CARD = 128,
    FCANON_LAST_MISSING_CARD = 179
};

/* The card that a text lacks by this answer of fcanon_read, or 0 where the answer is another. */
static inline uint8_t fcanon_missing_card(uint32_t answer) {
    int is_one = FCANON_FIRST_MISSING_CARD <= answer && answer <= FCANON_LAST_MISSING_CARD;
    return (uint8_t)(is_one ? answer - FCANON_FIRST_MISSING_CARD + 1 : 0);
}

FCANON_EXPORT uint32_t fcanon_version(void);

/* Puts the words for an answer into *text, as "not building": a C string that stays. Reasons and
 * faults have the words that the program prints, which are their names here; of a missing card these do
 * not name the card. */
FCANON_EXPORT FCANON_ATTRIBUTES((nonnull)) void fcanon_find_answer_text(uint32_t answer, const char **text);

static inline const char *fcanon_answer_text(uint32_t answer) {
    const char *text;
    fcanon_find_answer_text(answer, &text);
    return text;
}

/* The board that a text spells, by its lines as Freecell Solver prints them, in any spelling; or what
 * is at fault first, and its place in bytes from 0. Without a fault *place is left as it was. */
FCANON_CALL_NONNULL(4, 5) uint32_t fcanon_read(uint32_t game, const char *text, size_t length,
    fcanon_board *board, size_t *place);

/* The printed text of a board, 64 to 228 bytes, and 0 in all bytes after it: a C string. */
FCANON_CALL uint32_t fcanon_write(uint32_t game, const fcanon_board *board, char text[256]);

/* The canonical board, and the passage from the board to it. Two boards of a game have one canonical
 * board if and only if orders of columns and cells and a renaming of suits that keeps the building rule
 * lead from the one to the other. */
FCANON_CALL uint32_t fcanon_canon(uint32_t game, const fcanon_board *board, fcanon_board *canonical,
    fcanon_passage *passage);

/* The canonical board alone, which is the board's key: two boards have one key if and only if they have
 * one canonical board. */
FCANON_CALL uint32_t fcanon_key(uint32_t game, const fcanon_board *board, fcanon_board *key);

/* Makes each of the boards its key. Where one is no board, the answer is FCANON_NO_BOARD and *place
 * its index: then those before it are keys, and the others as they were. Otherwise *place stays. */
FCANON_CALL_NONNULL(4) uint32_t fcanon_keys(uint32_t game, fcanon_board *boards, size_t count,
    size_t *place);

/* A hash of the key in 16 bytes: SipHash-1-3 of the key's 72 bytes, and SipHash-1-3 of these and a
 * byte 1 after them. Both keys of SipHash are 0, and the lowest byte of each hash is the first. */
FCANON_CALL uint32_t fcanon_hash(uint32_t game, const fcanon_board *board, uint8_t hash[16]);

/* The sums of a board, from which fcanon_class_hash makes a hash. A search makes them once, and then moves
 * them with its board by fcanon_move_sums. */
FCANON_CALL uint32_t fcanon_sums(uint32_t game, const fcanon_board *board, fcanon_class_sums *sums);

/* Takes the sums along with a move of one card, 1 to 52: those of the board before the move become those of
 * the board after it. from is what the card lay on, onto what it lies on then, 0 to 54: in a column the card
 * before it or FCANON_ON_FOOT, else FCANON_ON_CELL or FCANON_ON_HOME. So 5H goes from 6S to a cell by
 * fcanon_move_sums(game, FCANON_CARD(5, 2), FCANON_CARD(6, 3), FCANON_ON_CELL, &sums). Other numbers are
 * answered by FCANON_NO_MOVE; whether the card lay there is not looked at. With from and onto exchanged the
 * move is taken back. Of cards that go from column to column together the first alone needs it: the others
 * lie on what they lay on. */
FCANON_CALL uint32_t fcanon_move_sums(uint32_t game, uint8_t card, uint8_t from, uint8_t onto,
    fcanon_class_sums *sums);

/* The hash of the class of the board that has these sums, 16 bytes: the least of them, where lower words are
 * compared first; its upper word and then its lower one, each with its lowest byte first. Boards that have
 * one key have one class hash. It is another hash than that of fcanon_hash, and not as good: its sums are of
 * products of a card's weight and that of what it lies on, 64 bits of SipHash each. So take it for no more
 * than 64 good bits, by which two of n classes meet with a chance of n * n / 2^65; and where a wrong match
 * would do harm, compare the keys. */
FCANON_CALL uint32_t fcanon_class_hash(uint32_t game, const fcanon_class_sums *sums, uint8_t hash[16]);

/* The canonical board of the board after a move, and the passage to it from the board after the
 * move: fcanon_play, and then fcanon_canon. The board stays. */
FCANON_CALL uint32_t fcanon_child(uint32_t game, const fcanon_board *board, const fcanon_move *move,
    fcanon_board *canonical, fcanon_passage *passage);

/* The renamings that with some orders lead from the board to itself, and how many they are, 1 to
 * 24: what clubs, diamonds, hearts and spades become. The first changes nothing, and they are in
 * ascending order. What suits has after them stays. */
FCANON_CALL uint32_t fcanon_symmetries(uint32_t game, const fcanon_board *board,
    uint8_t suits[24][4], uint32_t *count);

/* The passage from the one board to the other, or FCANON_APART where there is none: the passage that
 * fcanon_canon gives for the one board, and then the inverse of that for the other. */
FCANON_CALL uint32_t fcanon_same(uint32_t game, const fcanon_board *board,
    const fcanon_board *other, fcanon_passage *passage);

/* The passage that leads back. */
FCANON_CALL uint32_t fcanon_inverse(uint32_t game, const fcanon_passage *passage,
    fcanon_passage *inverse);

/* The first passage, and then the next: one passage to where they lead one after the other. Where one
 * of the two is no passage, the answer is FCANON_NO_PASSAGE. */
FCANON_CALL uint32_t fcanon_then(uint32_t game, const fcanon_passage *first,
    const fcanon_passage *next, fcanon_passage *both);

/* The board that the passage leads to from the board. The passage of fcanon_canon leads to the canonical
 * board, and its inverse from there back. */
FCANON_CALL uint32_t fcanon_image(uint32_t game, const fcanon_passage *passage,
    const fcanon_board *board, fcanon_board *image);

/* Makes a move the one of the same card on the board that the passage leads to. */
FCANON_CALL uint32_t fcanon_carry(uint32_t game, const fcanon_passage *passage, fcanon_move *move);

/* Plays a move on the board, or says why the game refuses it. */
FCANON_CALL uint32_t fcanon_play(uint32_t game, fcanon_board *board, const fcanon_move *move);

/* How many cards can go at once to the column of this digit, '1' to '8': one more than there are empty
 * cells, and twice as many for each other empty column, where these take every card. */
FCANON_CALL uint32_t fcanon_capacity(uint32_t game, const fcanon_board *board, uint8_t to,
    uint32_t *cards);

/* The same as fcanon_carry and fcanon_play, of a move of several cards. */
FCANON_CALL uint32_t fcanon_carry_run(uint32_t game, const fcanon_passage *passage,
    fcanon_run_move *run);
FCANON_CALL uint32_t fcanon_play_run(uint32_t game, fcanon_board *board, const fcanon_run_move *run);

/* The moves of one card, one after another, that do what a move of several does, and how many they are:
 * where there is room for FCANON_MOST_MOVES, there is for them. The board stays; what the game refuses
 * is answered as by fcanon_play_run, and too little room last. What moves has after them stays too. */
FCANON_CALL_NONNULL(2, 3, 6) uint32_t fcanon_expand(uint32_t game, const fcanon_board *board,
    const fcanon_run_move *run, fcanon_move *moves, size_t room, size_t *count);

/* All moves of one card that the game allows, and how many they are. They come in the order of what the
 * card is taken from, and of what it is put on: columns 1 to 8, cells, and home. Where there is room for
 * FCANON_MOST_CHILDREN moves, there is for them; too little room is answered last. What moves has after
 * them stays. */
FCANON_CALL_NONNULL(2, 5) uint32_t fcanon_moves(uint32_t game, const fcanon_board *board,
    fcanon_move *moves, size_t room, size_t *count);

/* All moves of two and more cards from column to column that the game allows, and how many they are. Each
 * says how many cards it moves, 2 to 13. To a column with cards one number at most can go, and to an empty
 * column each number up to the most, which are moves of their own; in Eight Off only what begins with a
 * king. They come in the order of the columns that they leave, of those that they go to, and of their
 * numbers. Where there is room for FCANON_MOST_RUN_MOVES, there is for them; too little room is answered
 * last. What runs has after them stays. */
FCANON_CALL_NONNULL(2, 5) uint32_t fcanon_run_moves(uint32_t game, const fcanon_board *board,
    fcanon_run_move *runs, size_t room, size_t *count);

/* The moves that fcanon_moves finds, how many they are, and for each the canonical board after it, as
 * fcanon_child finds it. Where there is room for FCANON_MOST_CHILDREN moves and as many keys, there is for
 * them; too little room is answered last. The board stays, and so does what moves and keys have after
 * them. */
FCANON_CALL_NONNULL(2, 7) uint32_t fcanon_children(uint32_t game, const fcanon_board *board,
    fcanon_move *moves, size_t moves_room, fcanon_board *keys, size_t keys_room, size_t *count);

/* The moves that fcanon_moves finds, how many they are, and for each the class hash of the board after it:
 * that of the sums as fcanon_move_sums makes them for the move. No board is made. The sums must be those of
 * the board, by fcanon_sums or kept by fcanon_move_sums: the board is tested, but not whether they are its
 * own. Where there is room for FCANON_MOST_CHILDREN, there is for all; too little room is answered last. The
 * board and the sums stay, and so does what children has after them. */
FCANON_CALL_NONNULL(2, 3, 6) uint32_t fcanon_child_hashes(uint32_t game, const fcanon_board *board,
    const fcanon_class_sums *sums, fcanon_child_hash *children, size_t room, size_t *count);

/* The same of a board that a call made or accepted as one of this game: it is not tested again. Other bytes
 * must not be handed to this call. */
FCANON_CALL_NONNULL(2, 3, 6) uint32_t fcanon_known_child_hashes(uint32_t game, const fcanon_board *board,
    const fcanon_class_sums *sums, fcanon_child_hash *children, size_t room, size_t *count);

/* Whether keys are those of a closed list: they are canonical boards, each above the one before it by
 * memcmp, none is won, and each move of one card leads from each to a board whose key is among them. Then
 * no list of moves, of one card or of several, wins from any of them. Nothing is searched: each move is
 * tried, and the key after it looked up. Where they are not, *place is the index of a key and the answer
 * what is wrong with it: of the first that is no board, not canonical or not ascending; and where there
 * is none, of the first that is won or has a move that leads out, which is the first in the order of
 * fcanon_moves and goes into *move. No other answer says that a board can be won. */
FCANON_CALL_NONNULL(4, 5) uint32_t fcanon_closed(uint32_t game, const fcanon_board *keys, size_t count,
    size_t *place, fcanon_move *move);

/* Whether keys show that no list of moves wins from the board: they are those of a closed list, as
 * fcanon_closed says it, and the key of the board is among them. */
FCANON_CALL_NONNULL(2) uint32_t fcanon_unsolvable(uint32_t game, const fcanon_board *board,
    const fcanon_board *keys, size_t count);

/* Microsoft's deal with this number, 1 to 2,147,483,647, of FreeCell and Baker's Game. */
FCANON_CALL uint32_t fcanon_deal(uint32_t game, uint32_t number, fcanon_board *board);

/* Whether all cards are home. */
static inline int fcanon_is_won(const fcanon_board *board) {
    return !memcmp(board->heights, "\15\15\15\15", 4);
}

/* Whether the two are one board, each card in one place. */
static inline int fcanon_equal(const fcanon_board *board, const fcanon_board *other) {
    return !memcmp(board, other, sizeof *board);
}

/* The card as it is printed, as "TD", and "--" for no card. */
static inline void fcanon_card_text(uint8_t card, char text[3]) {
    int there = 1 <= card && card <= 52;
    text[0] = there ? "A23456789TJQK"[FCANON_RANK(card) - 1] : '-';
    text[1] = there ? "CDHS"[FCANON_SUIT(card)] : '-';
    text[2] = 0;
}

#ifdef __cplusplus
}
#endif
#endif
