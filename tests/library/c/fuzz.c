/* fuzz SEED COUNT: calls of the library on bytes by chance, each argument directly before a page that may not be touched.
 *
 * Boards are deals some moves on, as they are or with bytes changed; passages and moves are made by chance. Each call must
 * leave what it writes as it was where it answers no 0, must not write past it, and must do what it says where it answers
 * 0: what is printed is read back, canonical twice is once, images come back, both boards play alike,
 * the moves of a run lead where the run leads, and keys, hashes and children are canonical boards'.
 */
#define _GNU_SOURCE
#define FCANON_CHECKED /* a move by chance may be refused */
#include "fcanon.h"
#include <stdio.h>
#include <stdlib.h>
#include <string.h>
#include <sys/mman.h>
#include <unistd.h>

static uint64_t state;
static long done[256];

static uint32_t chance(uint32_t below) {
    state = state * 6364136223846793005u + 1442695040888963407u;
    return (uint32_t)((state >> 33) % below);
}

/* So many bytes that end where a forbidden page begins. */
static void *fenced(size_t size) {
    size_t page = (size_t)sysconf(_SC_PAGESIZE), whole = (size + page - 1) / page * page;
    char *room = mmap(NULL, whole + page, PROT_READ | PROT_WRITE, MAP_PRIVATE | MAP_ANONYMOUS, -1, 0);
    if (room == MAP_FAILED || mprotect(room + whole, page, PROT_NONE)) exit(3);
    return room + whole - size;
}

static void must(int holds, const char *what, long turn) {
    if (!holds) printf("turn %ld: %s\n", turn, what), exit(1);
}

static uint32_t counted(uint32_t answer) {
    done[answer & 255]++;
    return answer;
}

static void spoil(uint8_t *bytes, size_t size) {
    uint32_t many = chance(4) ? 0 : 1 + chance(4);
    while (many--) bytes[chance((uint32_t)size)] = chance(3) ? (uint8_t)chance(56) : (uint8_t)chance(256);
}

static fcanon_move any_move(void) {
    static const char from[] = "12345678abcdefgk9", to[] = "12345678abcdefgkhh0";
    return (fcanon_move){(uint8_t)from[chance(17)], (uint8_t)to[chance(19)]};
}

/* A run goes over alike on both boards, its image comes back, and its moves of one card lead to the same board. */
static void try_run(uint32_t game, const fcanon_board *board, const fcanon_board *canonical, const fcanon_passage *passage,
                    const fcanon_passage *back, long turn) {
    static fcanon_run_move *run, *image;
    static fcanon_board *here, *there;
    static fcanon_move *moves, was;
    static uint32_t *cards;
    if (!run) run = fenced(3), image = fenced(3), here = fenced(72), there = fenced(72), moves = fenced(98), cards = fenced(4);
    fcanon_move piles = any_move();
    size_t room = chance(3) ? FCANON_MOST_MOVES : chance(8), count = 777, i;
    fcanon_move *end = moves + FCANON_MOST_MOVES - room; /* directly before the forbidden page */
    *run = *image = (fcanon_run_move){piles.from, piles.to, (uint8_t)(chance(2) ? 0 : chance(15))};
    *here = *there = *board, *cards = 777;
    uint32_t carried = counted(fcanon_carry_run(game, passage, image));
    must(carried == 0 || (carried == FCANON_NO_MOVE && !memcmp(run, image, 3)), "carry_run", turn);
    uint32_t played = counted(fcanon_play_run(game, here, run));
    must(played == 0 || !memcmp(here, board, 72), "play_run wrote at a refusal", turn);
    *there = *canonical;
    must(fcanon_play_run(game, there, image) == played, "the boards play runs apart", turn);
    memset(&was, 7, 2), memset(moves, 7, 98);
    uint32_t answer = counted(fcanon_expand(game, board, run, end, room, &count));
    must(answer == played || (answer == FCANON_NO_ROOM && !played && room < FCANON_MOST_MOVES), "expand and play_run", turn);
    for (i = answer ? 0 : count; i < room; i++) must(!memcmp(end + i, &was, 2), "expand wrote after its moves", turn);
    must(!answer || count == 777, "expand gave a number at a refusal", turn);
    *there = *board;
    for (i = 0; !answer && i < count; i++) must(!fcanon_play(game, there, end + i), "a move of an expansion", turn);
    must(answer || !memcmp(here, there, 72), "the expansion leads elsewhere", turn);
    if (!carried) must(!fcanon_carry_run(game, back, image) && !memcmp(run, image, 3), "the run does not come back", turn);
    answer = counted(fcanon_capacity(game, board, run->to, cards));
    must((answer == 0 && 0 < *cards && *cards <= 640) || (answer == FCANON_NO_COLUMN && *cards == 777), "capacity", turn);
}

static struct {
    fcanon_board *key, *many, *children;
    fcanon_passage *passage;
    fcanon_move *move, *moves;
    fcanon_run_move *runs;
    fcanon_class_sums *sums;
    fcanon_child_hash *hashes;
    uint8_t *hash, *other, (*suits)[4];
    uint32_t *count;
    size_t *place;
} room;

static void take_room(void) {
    room.key = fenced(72), room.many = fenced(3 * 72), room.passage = fenced(20), room.move = fenced(2);
    room.hash = fenced(16), room.other = fenced(16), room.suits = fenced(96), room.count = fenced(4);
    room.place = fenced(sizeof(size_t));
    room.moves = fenced(2 * FCANON_MOST_CHILDREN), room.children = fenced(72 * FCANON_MOST_CHILDREN);
    room.runs = fenced(3 * FCANON_MOST_RUN_MOVES);
    room.sums = fenced(sizeof(fcanon_class_sums)), room.hashes = fenced(18 * FCANON_MOST_CHILDREN);
}

/* The key, the hash and the symmetries of a board, which is none where canon answered so. */
static void try_key(uint32_t game, const fcanon_board *board, const fcanon_board *canonical,
                    uint32_t answer, long turn) {
    static fcanon_board was;
    uint32_t *count = room.count;
    uint8_t *hash = room.hash, (*suits)[4] = room.suits;
    memset(&was, 7, 72), *room.key = was, memset(hash, 7, 16), memset(suits, 7, 96), *count = 7;
    must(fcanon_key(game, board, room.key) == answer, "key disagrees", turn);
    must(fcanon_equal(room.key, answer ? &was : canonical), "another key", turn);
    must(fcanon_hash(game, board, hash) == answer, "hash disagrees", turn);
    must(!answer || (hash[0] == 7 && hash[15] == 7), "hash wrote at a refusal", turn);
    must(answer || !fcanon_hash(game, canonical, room.other), "no hash", turn);
    must(answer || !memcmp(hash, room.other, 16), "another hash", turn);
    must(fcanon_symmetries(game, board, suits, count) == answer, "symmetries disagree", turn);
    must(answer ? *count == 7 : 0 < *count && *count < 25, "number of symmetries", turn);
    must(answer ? suits[0][0] == 7 : !memcmp(suits, "\0\1\2\3", 4), "first symmetry", turn);
    must(*count == 24 || suits[23][3] == 7, "symmetries wrote past their count", turn);
}

/* The keys of three boards, of which this is the second, and the child by a move. */
static void try_keys(uint32_t game, const fcanon_board *board, const fcanon_board *canonical,
                     uint32_t answer, long turn) {
    static fcanon_board was;
    fcanon_board *many = room.many;
    memset(&was, 7, 72), *room.place = 7;
    many[0] = many[2] = answer ? was : *canonical, many[1] = *board;
    must(fcanon_keys(game, many, 3, room.place) == answer, "keys disagree", turn);
    must(fcanon_equal(many + 1, answer ? board : canonical), "keys", turn);
    must(fcanon_equal(many + 2, answer ? &was : canonical), "the last key", turn);
    must(*room.place == (answer == FCANON_NO_BOARD ? 0 : 7), "the place of no board", turn);
    *room.move = any_move(), *room.key = was, memset(room.passage, 7, 20), many[0] = *board;
    uint32_t child = counted(fcanon_child(game, board, room.move, room.key, room.passage));
    must(child == fcanon_play(game, many, room.move), "child and play", turn);
    must(child || !fcanon_key(game, many, many + 1), "no key of the child", turn);
    must(fcanon_equal(room.key, child ? &was : many + 1), "another child", turn);
    must(!child || room.passage->cells[7] == 7, "child wrote at a refusal", turn);
    must(strlen(fcanon_answer_text(child)) < 20, "words", turn);
}

/* A board alone as a closed list, right before the forbidden pages: it is one only if it is its own key, not won, and no move
 * leads to another board. */
static void try_closed(uint32_t game, const fcanon_board *board, const fcanon_board *canonical, uint32_t answer, long turn) {
    fcanon_board *one = room.children + FCANON_MOST_CHILDREN - 1, after, key;
    *one = *board, *room.place = 7, *room.move = (fcanon_move){7, 7};
    uint32_t got = counted(fcanon_closed(game, one, 1, room.place, room.move));
    must(answer ? got == answer : (got == FCANON_NOT_CANONICAL) == !fcanon_equal(one, canonical), "closed disagrees", turn);
    must(*room.place == (got < FCANON_NO_BOARD ? 7 : 0) && (room.move->from == 7) == (got != FCANON_OPEN), "what closed wrote", turn);
    after = *one;
    must(got != FCANON_OPEN || (!fcanon_play(game, &after, room.move) && !fcanon_key(game, &after, &key) && !fcanon_equal(&key, one)), "no move out", turn);
    got = counted(fcanon_unsolvable(game, board, one, 1));
    must(answer ? got == answer : (got == 0) == !fcanon_closed(game, one, 1, room.place, room.move), "unsolvable disagrees", turn);
}

/* The moves of a board, into room by chance directly before the forbidden pages: those of its children, and those of
 * several cards, each of which plays. */
static void try_moves(uint32_t game, const fcanon_board *board, uint32_t answer, long turn) {
    size_t many = chance(2) ? FCANON_MOST_CHILDREN : chance(40), runs_many = chance(2) ? FCANON_MOST_RUN_MOVES : chance(9);
    fcanon_move *moves = room.moves + FCANON_MOST_CHILDREN - many;
    fcanon_run_move *runs = room.runs + FCANON_MOST_RUN_MOVES - runs_many;
    fcanon_board after;
    memset(moves, 7, 2 * many), memset(runs, 7, 3 * runs_many), *room.place = 777;
    uint32_t got = counted(fcanon_moves(game, board, moves, many, room.place));
    size_t count = got ? 0 : *room.place;
    must(answer ? got == answer : got == 0 || (got == FCANON_NO_ROOM && many < FCANON_MOST_CHILDREN), "moves disagree", turn);
    must((!got || *room.place == 777) && count <= many, "the number of moves", turn);
    for (size_t i = 0; i < count; i++) after = *board, must(!fcanon_play(game, &after, moves + i), "a move is refused", turn);
    for (size_t i = count; i < many; i++) must(moves[i].from == 7, "moves wrote past their moves", turn);
    *room.place = 777;
    got = counted(fcanon_run_moves(game, board, runs, runs_many, room.place));
    count = got ? 0 : *room.place;
    must(answer ? got == answer : got == 0 || (got == FCANON_NO_ROOM && runs_many < FCANON_MOST_RUN_MOVES), "runs disagree", turn);
    must((!got || *room.place == 777) && count <= runs_many, "the number of runs", turn);
    for (size_t i = 0; i < count; i++) after = *board, must(!fcanon_play_run(game, &after, runs + i), "a run is refused", turn);
    for (size_t i = count; i < runs_many; i++) must(runs[i].count == 7, "run_moves wrote past its moves", turn);
}

/* The image of a board under the passage to its canonical board, and there and back. */
static void try_image(uint32_t game, const fcanon_board *board, const fcanon_board *canonical, const fcanon_passage *passage,
                      const fcanon_passage *back, long turn) {
    must(!fcanon_image(game, passage, board, room.key) && fcanon_equal(room.key, canonical), "another image", turn);
    must(!fcanon_then(game, passage, back, room.passage), "no passage after another", turn);
    must(!fcanon_image(game, room.passage, board, room.key) && fcanon_equal(room.key, board), "there and back", turn);
}

/* The moves of a board with their hashes, into room by chance directly before the forbidden pages: the class hash of the board
 * after each. */
static void try_child_hashes(uint32_t game, const fcanon_board *board, uint32_t answer, long turn) {
    size_t many = chance(2) ? FCANON_MOST_CHILDREN : chance(40);
    fcanon_child_hash *hashes = room.hashes + FCANON_MOST_CHILDREN - many;
    fcanon_board after;
    memset(room.sums, 7, sizeof *room.sums), memset(hashes, 7, 18 * many), *room.place = 777;
    must(fcanon_sums(game, board, room.sums) == answer, "sums disagree", turn);
    uint32_t got = counted(answer || chance(2) ? fcanon_child_hashes(game, board, room.sums, hashes, many, room.place)
                                               : fcanon_known_child_hashes(game, board, room.sums, hashes, many, room.place));
    size_t count = got ? 0 : *room.place;
    must(answer ? got == answer : got == 0 || (got == FCANON_NO_ROOM && many < FCANON_MOST_CHILDREN), "child hashes disagree", turn);
    must((!got || *room.place == 777) && count <= many, "the number of child hashes", turn);
    for (size_t i = 0; i < count; i++) {
        after = *board;
        must(!fcanon_play(game, &after, &hashes[i].move) && !fcanon_sums(game, &after, room.sums), "a hash by no move", turn);
        must(!fcanon_class_hash(game, room.sums, room.hash) && !memcmp(room.hash, hashes[i].hash, 16), "another child hash", turn);
    }
    for (size_t i = count; i < many; i++) must(hashes[i].hash[15] == 7, "child_hashes wrote past its hashes", turn);
}

/* All children of a board, into room by chance directly before the forbidden pages. */
static void try_children(uint32_t game, const fcanon_board *board, uint32_t answer, long turn) {
    size_t many = chance(2) ? FCANON_MOST_CHILDREN : chance(40), keys_many = chance(2) ? FCANON_MOST_CHILDREN : chance(40);
    fcanon_move *moves = room.moves + FCANON_MOST_CHILDREN - many;
    fcanon_board *keys = room.children + FCANON_MOST_CHILDREN - keys_many, after, key;
    memset(moves, 7, 2 * many), memset(keys, 7, 72 * keys_many), *room.place = 777;
    uint32_t got = counted(fcanon_children(game, board, moves, many, keys, keys_many, room.place));
    size_t count = got ? 0 : *room.place;
    must(answer ? got == answer : got == 0 || got == FCANON_NO_ROOM, "children disagree", turn);
    must(got != FCANON_NO_ROOM || many < FCANON_MOST_CHILDREN || keys_many < FCANON_MOST_CHILDREN, "room for all", turn);
    must(!got || *room.place == 777, "children gave a number at a refusal", turn);
    must(count <= many && count <= keys_many, "more children than room", turn);
    for (size_t i = 0; i < count; i++) {
        after = *board;
        must(!fcanon_play(game, &after, moves + i) && !fcanon_key(game, &after, &key), "a child by no move", turn);
        must(fcanon_equal(keys + i, &key), "a child's key", turn);
    }
    for (size_t i = count; i < many; i++) must(moves[i].from == 7, "children wrote past their moves", turn);
    for (size_t i = count; i < keys_many; i++) must(keys[i].cards[51] == 7, "children wrote past their keys", turn);
}

int main(int argc, char **argv) {
    fcanon_board *board = fenced(72), *other = fenced(72), *canonical = fenced(72), *again = fenced(72), before;
    fcanon_passage *passage = fenced(20), *back = fenced(20), was;
    fcanon_move *move = fenced(2), *image = fenced(2);
    char *text = fenced(256), *given = fenced(256);
    size_t *place = fenced(sizeof(size_t));
    long turn, turns = argc > 2 ? atol(argv[2]) : 10000;
    state = argc > 1 ? strtoull(argv[1], NULL, 10) : 1;
    take_room();
    for (turn = 0; turn < turns; turn++) {
        uint32_t game = chance(40) ? chance(3) : chance(5), answer, steps = chance(60);
        counted(fcanon_deal(game % 2, 1 + chance(1000000), board));
        while (steps--) *move = any_move(), fcanon_play(game, board, move);
        spoil((uint8_t *)board, sizeof *board);
        before = *board;
        memset(canonical, 7, sizeof *canonical), memset(passage, 7, sizeof *passage), was = *passage;
        answer = counted(fcanon_canon(game, board, canonical, passage));
        must(!memcmp(board, &before, sizeof before), "a board that is read was changed", turn);
        try_key(game, board, canonical, answer, turn);
        try_keys(game, board, canonical, answer, turn);
        try_moves(game, board, answer, turn);
    try_closed(game, board, canonical, answer, turn);
        try_children(game, board, answer, turn);
        try_child_hashes(game, board, answer, turn);
        if (answer) {
            must(canonical->cards[51] == 7 && !memcmp(passage, &was, sizeof was), "canon wrote at a refusal", turn);
            memset(text, 7, 256);
            must(fcanon_write(game, board, text) == answer && text[0] == 7, "write disagrees", turn);
        } else {
            must(!fcanon_canon(game, canonical, again, back) && !memcmp(canonical, again, 72), "twice is not once", turn);
            must(!fcanon_write(game, board, text) && !text[255], "no text", turn);
            size_t length = strlen(text);
            char *printed = given + 256 - length; /* directly before the forbidden page */
            memcpy(printed, text, length);
            *place = 7;
            must(!fcanon_read(game, printed, length, other, place) && !memcmp(board, other, 72) && *place == 7, "not read back", turn);
            must(!fcanon_same(game, board, canonical, back), "apart from its canonical board", turn);
            must(!fcanon_inverse(game, passage, back), "no inverse", turn);
            try_image(game, board, canonical, passage, back, turn);
            *move = *image = any_move();
            answer = counted(fcanon_carry(game, passage, image));
            must(answer == 0 || answer == FCANON_NO_MOVE, "carry", turn);
            must(answer == 0 || !memcmp(move, image, 2), "a move was changed at a refusal", turn);
            must(counted(fcanon_play(game, board, move)) == fcanon_play(game, canonical, image), "the boards play apart", turn);
            if (!answer) must(!fcanon_carry(game, back, image) && !memcmp(move, image, 2), "the image does not come back", turn);
            try_run(game, board, canonical, passage, back, turn);
        }
        spoil((uint8_t *)passage, sizeof *passage);
        memset(back, 7, sizeof *back);
        must(!counted(fcanon_inverse(game, passage, back)) || back->cells[7] == 7, "inverse wrote at a refusal", turn);
        memset(room.passage, 7, 20), memset(room.key, 7, 72);
        must(!counted(fcanon_then(game, passage, passage, room.passage)) || room.passage->cells[7] == 7, "then wrote at a refusal", turn);
        must(!counted(fcanon_image(game, passage, board, room.key)) || room.key->cards[51] == 7, "image wrote at a refusal", turn);
        uint32_t length = chance(256);
        for (uint32_t i = 0; i < length; i++) given[255 - i] = chance(2) ? given[255 - chance(256)] : "KQ2H:-\n\r F"[chance(10)];
        before = *other;
        answer = counted(fcanon_read(game, given + 256 - length, length, other, place));
        must(!answer || !memcmp(other, &before, sizeof before), "read wrote at a refusal", turn);
        must(answer < 64 || *place <= length, "a place outside the text", turn);
    }
    for (turn = 0; turn < 256; turn++)
        if (done[turn]) printf("answer %ld: %ld\n", turn, done[turn]);
    return 0;
}
