/* sum COUNT: a sum of what each call answers and writes, on COUNT boards of play by chance of the three games, of which
 * some are damaged. */
#define FCANON_CHECKED /* a move by chance may be refused */
#include "fcanon.h"
#include <stdio.h>
#include <stdlib.h>

static const char piles[] = "12345678abcdefgkh";
static uint64_t state = 1, sum = 14695981039346656037u;
static long calls;

static uint32_t chance(uint32_t below) {
    state = state * 6364136223846793005u + 1442695040888963407u;
    return (uint32_t)((state >> 33) % below);
}

static void add(const void *bytes, size_t size) {
    const uint8_t *byte = bytes;
    while (size--) sum = (sum ^ *byte++) * 1099511628211u;
}

static void add_number(uint64_t number) { add(&number, sizeof number); }

/* Adds what a call answered, and what it wrote. */
static void did(uint32_t answer, const void *bytes, size_t size) {
    calls++;
    add_number(answer);
    add(bytes, size);
}

static fcanon_move any_move(void) {
    uint8_t from = (uint8_t)piles[chance(17)];
    return (fcanon_move){from, (uint8_t)piles[chance(17)]};
}

static fcanon_run_move any_run(void) {
    fcanon_move piles_of_run = any_move();
    return (fcanon_run_move){piles_of_run.from, piles_of_run.to, (uint8_t)chance(6)};
}

static fcanon_board any_board(uint32_t game) {
    fcanon_board board;
    fcanon_deal(game % 2, 1 + chance(0x7ffffffe), &board);
    for (uint32_t left = 40 * chance(60); left; left--) {
        fcanon_move move = any_move();
        fcanon_play(game, &board, &move);
    }
    if (chance(11) == 0) ((uint8_t *)&board)[chance(72)] ^= (uint8_t)(1 << chance(8));
    return board;
}

static void try_texts(uint32_t game, const fcanon_board *board) {
    char text[256] = {0};
    fcanon_board again = {{0}, {0}, {0}, {0}};
    size_t length = 0, place = 7;
    did(fcanon_write(game, board, text), text, sizeof text);
    if (chance(5) == 0) text[chance(200)] = piles[chance(17)];
    while (length < sizeof text && text[length]) length++;
    did(fcanon_read(game, text, length, &again, &place), &again, sizeof again);
    add_number(place);
}

static void try_keys(uint32_t game, const fcanon_board *board) {
    fcanon_board keys[3];
    uint8_t hash[16] = {0};
    size_t place = 7;
    keys[0] = keys[1] = keys[2] = *board;
    did(fcanon_key(game, board, keys), keys, sizeof keys);
    did(fcanon_hash(game, board, hash), hash, sizeof hash);
    did(fcanon_keys(game, keys, 3, &place), keys, sizeof keys);
    add_number(place);
}

static void try_closed(uint32_t game, const fcanon_board *board) {
    fcanon_board keys[2];
    fcanon_move move = {7, 7};
    size_t place = 7;
    keys[0] = keys[1] = *board;
    if (chance(2)) did(fcanon_key(game, board, keys), keys, sizeof keys);
    did(fcanon_closed(game, keys, 1 + chance(2), &place, &move), &move, sizeof move);
    add_number(place);
    did(fcanon_unsolvable(game, board, keys, 1), keys, sizeof keys);
}

static void try_sums(uint32_t game, const fcanon_board *board) {
    static fcanon_child_hash hashes[FCANON_MOST_CHILDREN];
    fcanon_class_sums sums = {{{0}}};
    size_t count = 7;
    uint8_t hash[16] = {0}, card = (uint8_t)chance(55), from = (uint8_t)chance(56), onto = (uint8_t)chance(57);
    did(fcanon_sums(game, board, &sums), &sums, sizeof sums);
    size_t room = chance(4) ? FCANON_MOST_CHILDREN : chance(30);
    did(fcanon_child_hashes(game, board, &sums, hashes, room, &count), hashes, sizeof hashes);
    add_number(count);
    if (!fcanon_sums(game, board, &sums))
        did(fcanon_known_child_hashes(game, board, &sums, hashes, room, &count), hashes, sizeof hashes);
    did(fcanon_move_sums(game, card, from, onto, &sums), &sums, sizeof sums);
    did(fcanon_class_hash(game, &sums, hash), hash, sizeof hash);
}

static void try_children(uint32_t game, const fcanon_board *board) {
    static fcanon_move moves[FCANON_MOST_CHILDREN];
    static fcanon_board keys[FCANON_MOST_CHILDREN];
    fcanon_board child = {{0}, {0}, {0}, {0}};
    fcanon_passage passage = {{0}, {0}, {0}};
    fcanon_move move = any_move();
    size_t room = chance(4) ? FCANON_MOST_CHILDREN : chance(30), count = 7;
    did(fcanon_child(game, board, &move, &child, &passage), &child, sizeof child);
    add(&passage, sizeof passage);
    did(fcanon_children(game, board, moves, room, keys, FCANON_MOST_CHILDREN, &count), moves, sizeof moves);
    add(keys, sizeof keys);
    add_number(count);
}

static void try_lists(uint32_t game, const fcanon_board *board) {
    static fcanon_move moves[FCANON_MOST_CHILDREN];
    static fcanon_run_move runs[FCANON_MOST_RUN_MOVES];
    size_t room = chance(4) ? FCANON_MOST_CHILDREN : chance(30), count = 7, runs_count = 7;
    did(fcanon_moves(game, board, moves, room, &count), moves, sizeof moves);
    did(fcanon_run_moves(game, board, runs, room, &runs_count), runs, sizeof runs);
    add_number(count);
    add_number(runs_count);
}

static void try_passages(uint32_t game, const fcanon_board *board) {
    fcanon_board canonical = {{0}, {0}, {0}, {0}};
    fcanon_passage passage = {{0}, {0}, {0}}, other = {{0}, {0}, {0}};
    uint8_t suits[24][4] = {{0}};
    uint32_t count = 0;
    fcanon_move move = any_move();
    fcanon_run_move run = any_run();
    did(fcanon_canon(game, board, &canonical, &passage), &canonical, sizeof canonical);
    add(&passage, sizeof passage);
    did(fcanon_symmetries(game, board, suits, &count), suits, sizeof suits);
    add_number(count);
    did(fcanon_same(game, board, &canonical, &other), &other, sizeof other);
    did(fcanon_inverse(game, &passage, &other), &other, sizeof other);
    did(fcanon_then(game, &passage, &passage, &other), &other, sizeof other);
    did(fcanon_image(game, &other, board, &canonical), &canonical, sizeof canonical);
    did(fcanon_carry(game, &passage, &move), &move, sizeof move);
    did(fcanon_carry_run(game, &passage, &run), &run, sizeof run);
}

static void try_moves(uint32_t game, const fcanon_board *board) {
    fcanon_board after = *board;
    fcanon_move move = any_move(), moves[FCANON_MOST_MOVES] = {{0, 0}};
    fcanon_run_move run = any_run();
    uint32_t cards = 0;
    size_t count = 7, room = chance(7) ? FCANON_MOST_MOVES : chance(4);
    did(fcanon_capacity(game, board, (uint8_t)piles[chance(9)], &cards), &cards, sizeof cards);
    did(fcanon_expand(game, board, &run, moves, room, &count), moves, sizeof moves);
    add_number(count);
    did(fcanon_play_run(game, &after, &run), &after, sizeof after);
    did(fcanon_play(game, &after, &move), &after, sizeof after);
    uint32_t dealt_game = chance(4);
    did(fcanon_deal(dealt_game, chance(100), &after), &after, sizeof after);
}

int main(int argc, char **argv) {
    long many = argc > 1 ? atol(argv[1]) : 1000;
    for (long turn = 0; turn < many; turn++) {
        uint32_t game = (uint32_t)(turn % 3);
        fcanon_board board = any_board(game);
        try_texts(game, &board);
        try_keys(game, &board);
        try_closed(game, &board);
        try_sums(game, &board);
        try_children(game, &board);
        try_lists(game, &board);
        try_passages(game, &board);
        try_moves(game, &board);
    }
    for (uint32_t answer = 0; answer < 300; answer++) {
        const char *text = fcanon_answer_text(answer);
        add(text, strlen(text));
    }
    printf("%ld calls %016llx\n", calls, (unsigned long long)sum);
    return 0;
}
