/* class-sums PLAYS STATES: sums that are moved with a board are those of the board, child hashes are those of
 * moved sums, boards of one class have one class hash, and those of other classes have others. PLAYS boards
 * are played to by chance, and STATES are found by two searches in each game, each once by its class hash.
 * Prints what is wrong, and how many of each there were. */
#define FCANON_CHECKED /* what must be 0 is looked at by `must` */
#include "fcanon.h"
#include <stdio.h>
#include <stdlib.h>
#include <string.h>

typedef struct pair {
    uint8_t hash[16], other[16];
} pair;

typedef struct table {
    pair *pairs;
    size_t room, count;
} table;

typedef struct state {
    fcanon_board board;
    fcanon_class_sums sums;
} state;

static uint64_t seed = 1;

static uint32_t chance(uint32_t below) {
    seed = seed * 6364136223846793005u + 1442695040888963407u;
    return (uint32_t)((seed >> 33) % below);
}

static void must(int holds, const char *what) {
    if (holds) return;
    printf("%s\n", what);
    exit(1);
}

static size_t end_of(const fcanon_board *board, int column) {
    size_t end = 0;
    for (int i = 0; i <= column; i++) end += board->lengths[i];
    return end;
}

/* What a card lies on that is the last but so many of a column, or is put on it. */
static uint8_t before_last(const fcanon_board *board, int column, int many) {
    return board->lengths[column] > many ? board->cards[end_of(board, column) - 1 - (size_t)many] : FCANON_ON_FOOT;
}

static int is_column(uint8_t pile) { return '1' <= pile && pile <= '8'; }

/* Plays a move, and moves the sums. */
static void play(uint32_t game, state *it, const fcanon_move *move) {
    uint8_t card, from = FCANON_ON_CELL, onto = FCANON_ON_CELL;
    if (is_column(move->from)) {
        card = it->board.cards[end_of(&it->board, move->from - '1') - 1];
        from = before_last(&it->board, move->from - '1', 1);
    } else {
        card = it->board.cells[move->from == 'k' ? 7 : move->from - 'a'];
    }
    if (is_column(move->to)) onto = before_last(&it->board, move->to - '1', 0);
    if (move->to == 'h') onto = FCANON_ON_HOME;
    must(!fcanon_play(game, &it->board, move), "a listed move is refused");
    fcanon_class_sums before = it->sums, back;
    must(!fcanon_move_sums(game, card, from, onto, &it->sums), "the sums are not moved");
    back = it->sums;
    must(!fcanon_move_sums(game, card, onto, from, &back) && !memcmp(&back, &before, sizeof back), "a move is not taken back");
}

/* An equivalent board, by a passage of chance. */
static fcanon_board turned(uint32_t game, const fcanon_board *board) {
    fcanon_passage passage;
    fcanon_board image;
    uint8_t *orders[3] = {passage.suits, passage.columns, passage.cells};
    uint32_t sizes[3] = {4, 8, game == FCANON_EIGHT_OFF ? 8 : 4};
    do {
        memset(&passage, 0, sizeof passage);
        for (int order = 0; order < 3; order++)
            for (uint32_t i = 0; i < sizes[order]; i++) {
                uint32_t at = chance(i + 1);
                orders[order][i] = orders[order][at];
                orders[order][at] = (uint8_t)i;
            }
    } while (fcanon_image(game, &passage, board, &image)); /* not every renaming keeps the rule */
    return image;
}

/* Puts the two hashes of a board into the table by the first, and returns whether it is new. */
static int put(table *seen, const uint8_t *hash, const uint8_t *other) {
    uint64_t at;
    memcpy(&at, hash, 8);
    for (at %= seen->room; memcmp(seen->pairs[at].other, "\0\0\0\0\0\0\0\0\0\0\0\0\0\0\0", 16); at = (at + 1) % seen->room)
        if (!memcmp(seen->pairs[at].hash, hash, 16)) {
            must(!memcmp(seen->pairs[at].other, other, 16), "two hashes part what the other kind joins");
            return 0;
        }
    memcpy(seen->pairs[at].hash, hash, 16);
    memcpy(seen->pairs[at].other, other, 16);
    return seen->count++, 1;
}

static void start(uint32_t game, uint32_t deal, state *it) {
    must(!fcanon_deal(game == FCANON_EIGHT_OFF ? 0 : game, deal, &it->board), "no deal");
    must(!fcanon_sums(game, &it->board, &it->sums), "no sums");
}

/* A board with tens to kings alone, two of them in each column, by chance. */
static void start_late(uint32_t game, state *it) {
    memset(&it->board, 0, sizeof it->board);
    memset(it->board.heights, 9, 4);
    memset(it->board.lengths, 2, 8);
    for (uint32_t i = 0; i < 16; i++) {
        uint32_t at = chance(i + 1);
        it->board.cards[i] = it->board.cards[at];
        it->board.cards[at] = (uint8_t)(FCANON_CARD(10, 0) + i);
    }
    must(!fcanon_sums(game, &it->board, &it->sums), "no sums of a late board");
}

static void compare(uint32_t game, const state *it) {
    fcanon_class_sums anew;
    fcanon_board image = turned(game, &it->board);
    uint8_t hash[16], other[16];
    must(!fcanon_sums(game, &it->board, &anew), "no sums");
    must(!memcmp(&anew, &it->sums, sizeof anew), "moved sums are others than those of the board");
    fcanon_class_hash(game, &anew, hash);
    must(!fcanon_sums(game, &image, &anew), "no sums of an equivalent board");
    fcanon_class_hash(game, &anew, other);
    must(!memcmp(hash, other, 16), "equivalent boards have two class hashes");
}

/* Of cards that go together the first alone moves the sums. */
static void try_runs(uint32_t game, const state *it) {
    static fcanon_run_move runs[FCANON_MOST_RUN_MOVES];
    size_t count;
    fcanon_run_moves(game, &it->board, runs, FCANON_MOST_RUN_MOVES, &count);
    for (size_t i = 0; i < count; i++) {
        int from = runs[i].from - '1', to = runs[i].to - '1';
        uint8_t first = it->board.cards[end_of(&it->board, from) - runs[i].count];
        state next = *it;
        must(!fcanon_move_sums(game, first, before_last(&it->board, from, runs[i].count), before_last(&it->board, to, 0), &next.sums),
             "the sums are not moved by a run");
        must(!fcanon_play_run(game, &next.board, runs + i), "a listed run is refused");
        compare(game, &next);
    }
}

/* The child hashes are those of the sums moved by each of the moves, in the order of these. */
static void try_child_hashes(uint32_t game, const state *it) {
    static fcanon_child_hash hashes[FCANON_MOST_CHILDREN];
    fcanon_move moves[FCANON_MOST_CHILDREN];
    size_t count, many;
    fcanon_moves(game, &it->board, moves, FCANON_MOST_CHILDREN, &many);
    must(!fcanon_child_hashes(game, &it->board, &it->sums, hashes, FCANON_MOST_CHILDREN, &count), "no child hashes");
    must(count == many, "another number of child hashes than of moves");
    for (size_t i = 0; i < count; i++) {
        state next = *it;
        uint8_t hash[16];
        play(game, &next, moves + i);
        fcanon_class_hash(game, &next.sums, hash);
        must(!memcmp(&hashes[i].move, moves + i, 2) && !memcmp(hashes[i].hash, hash, 16), "another child hash");
    }
}

static void play_by_chance(uint32_t plays) {
    fcanon_move moves[FCANON_MOST_CHILDREN];
    for (uint32_t deal = 1; plays; deal++) {
        uint32_t game = deal % 3;
        state it;
        size_t count;
        start(game, deal, &it);
        for (int i = 0; i < 100 && plays; i++, plays--) {
            compare(game, &it);
            try_runs(game, &it);
            try_child_hashes(game, &it);
            fcanon_moves(game, &it.board, moves, FCANON_MOST_CHILDREN, &count);
            if (!count) break;
            play(game, &it, moves + chance((uint32_t)count));
        }
    }
}

/* States are taken up in the order in which they are found, each once by its class hash, from deal 1 or a
 * late board on. */
static size_t search(uint32_t game, int is_late, size_t states) {
    table by_key = {calloc(3 * states, sizeof(pair)), 3 * states, 0}, by_class = {calloc(3 * states, sizeof(pair)), 3 * states, 0};
    state *found = malloc(states * sizeof *found);
    fcanon_move moves[FCANON_MOST_CHILDREN];
    size_t count, end = 1;
    must(by_key.pairs && by_class.pairs && found, "no memory");
    if (is_late) start_late(game, found);
    else start(game, 1, found);
    for (size_t at = 0; at < end && end < states; at++) {
        fcanon_moves(game, &found[at].board, moves, FCANON_MOST_CHILDREN, &count);
        for (size_t i = 0; i < count && end < states; i++) {
            state next = found[at];
            uint8_t hash[16], class_hash[16];
            play(game, &next, moves + i);
            must(!fcanon_hash(game, &next.board, hash), "no hash");
            fcanon_class_hash(game, &next.sums, class_hash);
            must(put(&by_key, hash, class_hash) == put(&by_class, class_hash, hash), "a class is new by one hash alone");
            if (by_class.count > end - 1) found[end++] = next;
        }
    }
    must(by_key.count == by_class.count, "as many keys as class hashes there must be");
    count = by_class.count;
    free(by_key.pairs), free(by_class.pairs), free(found);
    return count;
}

int main(int argc, char **argv) {
    must(argc == 3, "class-sums PLAYS STATES");
    uint32_t plays = (uint32_t)atol(argv[1]);
    size_t states = (size_t)atol(argv[2]), classes = 0;
    play_by_chance(plays);
    for (uint32_t search_of = 0; search_of < 6; search_of++) classes += search(search_of % 3, search_of < 3, states / 6);
    printf("%u boards of play, %zu classes of a search\n", plays, classes);
    return 0;
}
