/* threads COUNT: so many threads make the same calls at once, on the same boards, and must have the same answers. */
#include "fcanon.h"
#include <pthread.h>
#include <stdio.h>
#include <stdlib.h>
#include <string.h>

enum { GAMES = 3, DEALS = 20, STEPS = 20 };

/* What the calls give of a board. */
typedef struct given {
    fcanon_board key, canonical, child;
    fcanon_passage passage, back, itself, onward;
    fcanon_class_sums sums;
    fcanon_move moves[FCANON_MOST_CHILDREN];
    fcanon_board keys[FCANON_MOST_CHILDREN];
    fcanon_child_hash hashes[FCANON_MOST_CHILDREN];
    uint8_t hash[16], class_hash[16];
    char text[256];
    size_t count;
    uint32_t answers[11];
} given;

static fcanon_board boards[GAMES][DEALS][STEPS];

static void call_all(uint32_t game, const fcanon_board *board, given *it) {
    uint32_t *answer = it->answers;
    memset(it, 0, sizeof *it);
    *answer++ = fcanon_key(game, board, &it->key);
    *answer++ = fcanon_canon(game, board, &it->canonical, &it->passage);
    *answer++ = fcanon_inverse(game, &it->passage, &it->back);
    *answer++ = fcanon_then(game, &it->passage, &it->back, &it->itself);
    *answer++ = fcanon_hash(game, board, it->hash);
    *answer++ = fcanon_sums(game, board, &it->sums);
    *answer++ = fcanon_class_hash(game, &it->sums, it->class_hash);
    *answer++ = fcanon_child_hashes(game, board, &it->sums, it->hashes, FCANON_MOST_CHILDREN, &it->count);
    *answer++ = fcanon_write(game, board, it->text);
    *answer++ = fcanon_children(game, board, it->moves, FCANON_MOST_CHILDREN, it->keys, FCANON_MOST_CHILDREN, &it->count);
    *answer++ = it->count ? fcanon_child(game, board, it->moves, &it->child, &it->onward) : FCANON_DONE;
}

static given found[GAMES][DEALS][STEPS];

static void *call_again(void *differences) {
    static _Thread_local given it;
    for (uint32_t game = 0; game < GAMES; game++)
        for (int deal = 0; deal < DEALS; deal++)
            for (int step = 0; step < STEPS; step++) {
                call_all(game, &boards[game][deal][step], &it);
                *(long *)differences += memcmp(&it, &found[game][deal][step], sizeof it) != 0;
            }
    return NULL;
}

/* The boards of a deal and of moves on it. Eight Off is dealt as FreeCell is, but for its cells. */
static void fill(uint32_t game, int deal) {
    fcanon_board board;
    if (fcanon_deal(game == FCANON_EIGHT_OFF ? FCANON_FREECELL : game, (uint32_t)deal + 1, &board)) exit(2);
    for (int step = 0; step < STEPS; step++) {
        given *it = &found[game][deal][step];
        boards[game][deal][step] = board;
        call_all(game, &board, it);
        if (it->count && fcanon_play(game, &board, it->moves + (size_t)(deal + step) % it->count)) exit(2);
    }
}

int main(int count, char **words) {
    int threads = count == 2 ? atoi(words[1]) : 0;
    pthread_t made[64];
    long differences[64] = {0};
    if (threads < 1 || threads > 64) return 2;
    for (uint32_t game = 0; game < GAMES; game++)
        for (int deal = 0; deal < DEALS; deal++) fill(game, deal);
    for (int i = 0; i < threads; i++)
        if (pthread_create(made + i, NULL, call_again, differences + i)) return 2;
    for (int i = 0; i < threads; i++) {
        if (pthread_join(made[i], NULL)) return 2;
        if (differences[i]) printf("thread %d: %ld boards have other answers\n", i, differences[i]);
    }
    printf("%d boards, %d threads\n", GAMES * DEALS * STEPS, threads);
    return 0;
}
