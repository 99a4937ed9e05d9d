/* count: each call of the library on boards of play, for a counter of instructions around it: deals 1
 * to 100 of FreeCell, and up to 60 moves by chance on each. Only what call_each calls is to be
 * counted. */
#define FCANON_CHECKED /* what is counted is not looked at */
#include "fcanon.h"
#include <string.h>

enum { DEALS = 100, MOVES = 60, TRIES = 1000, GAME = FCANON_FREECELL };

static uint64_t state = 1;

static uint32_t chance(uint32_t below) {
    state = state * 6364136223846793005u + 1442695040888963407u;
    return (uint32_t)((state >> 33) % below);
}

/* Plays a legal move on the board and returns it, or no move where none was found. */
static fcanon_move moved(fcanon_board *board) {
    static const char from[] = "12345678abcd", to[] = "12345678abcdhhhh";
    for (int i = 0; i < TRIES; i++) {
        fcanon_move move = {(uint8_t)from[chance(12)], (uint8_t)to[chance(16)]};
        fcanon_board after = *board;
        if (!fcanon_play(GAME, &after, &move)) return *board = after, move;
    }
    return (fcanon_move){0, 0};
}

static void call_each(uint32_t deal, const fcanon_board *board, const fcanon_move *move) {
    fcanon_board after = *board, canonical, other;
    fcanon_passage passage, back, back_again;
    fcanon_move image = *move, moves[FCANON_MOST_CHILDREN];
    static fcanon_board keys[FCANON_MOST_CHILDREN];
    static fcanon_child_hash hashes[FCANON_MOST_CHILDREN];
    static fcanon_run_move runs[FCANON_MOST_RUN_MOVES];
    fcanon_run_move run = {move->from, move->to, 0}, carried = run;
    char text[256];
    uint8_t hash[16], suits[24][4];
    fcanon_class_sums sums;
    uint32_t cards;
    const char *words;
    size_t place;
    fcanon_version();
    fcanon_find_answer_text(FCANON_DONE, &words);
    fcanon_deal(GAME, deal, &other);
    fcanon_play(GAME, &after, move);
    after = *board;
    fcanon_play_run(GAME, &after, &run);
    fcanon_capacity(GAME, board, '1', &cards);
    fcanon_write(GAME, board, text);
    fcanon_read(GAME, text, strlen(text), &other, &place);
    fcanon_canon(GAME, board, &canonical, &passage);
    fcanon_key(GAME, board, &other);
    other = *board;
    fcanon_keys(GAME, &other, 1, &place);
    fcanon_hash(GAME, board, hash);
    fcanon_sums(GAME, board, &sums);
    fcanon_child_hashes(GAME, board, &sums, hashes, FCANON_MOST_CHILDREN, &place);
    fcanon_known_child_hashes(GAME, board, &sums, hashes, FCANON_MOST_CHILDREN, &place);
    fcanon_move_sums(GAME, 7, 30, FCANON_ON_CELL, &sums);
    fcanon_class_hash(GAME, &sums, hash);
    fcanon_child(GAME, board, move, &other, &back);
    fcanon_carry(GAME, &passage, &image);
    fcanon_carry_run(GAME, &passage, &carried);
    fcanon_inverse(GAME, &passage, &back);
    fcanon_image(GAME, &passage, board, &other);
    fcanon_then(GAME, &passage, &back, &back_again);
    fcanon_same(GAME, board, &canonical, &back);
    fcanon_closed(GAME, &canonical, 1, &place, &image);
    fcanon_unsolvable(GAME, board, &canonical, 1);
    fcanon_symmetries(GAME, board, suits, &cards);
    fcanon_expand(GAME, board, &run, moves, FCANON_MOST_MOVES, &place);
    fcanon_moves(GAME, board, moves, FCANON_MOST_CHILDREN, &place);
    fcanon_run_moves(GAME, board, runs, FCANON_MOST_RUN_MOVES, &place);
    fcanon_children(GAME, board, moves, FCANON_MOST_CHILDREN, keys, FCANON_MOST_CHILDREN, &place);
}

int main(void) {
    for (uint32_t deal = 1; deal <= DEALS; deal++) {
        fcanon_board board;
        fcanon_deal(GAME, deal, &board);
        for (int i = 0; i < MOVES; i++) {
            fcanon_board before = board;
            fcanon_move move = moved(&board);
            if (!move.from) break;
            call_each(deal, &before, &move);
        }
    }
    return 0;
}
