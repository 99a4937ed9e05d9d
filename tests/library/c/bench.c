/* bench: how long a call of the library takes on deals of FreeCell, in microseconds of the processor, the best of nine. */
#define FCANON_CHECKED /* what is measured is not looked at */
#include "fcanon.h"
#include <stdio.h>
#include <string.h>
#include <time.h>

enum { DEALS = 20000, TURNS = 9 };

static fcanon_board boards[DEALS], other;
static uint8_t hash[16];
static fcanon_passage passages[DEALS];
static fcanon_move first = {'3', 'a'};
static char texts[DEALS][256];
static size_t lengths[DEALS];

static void deal(int i) { fcanon_deal(FCANON_FREECELL, (uint32_t)i + 1, boards + i); }
static void write(int i) { fcanon_write(FCANON_FREECELL, boards + i, texts[i]); }
static void length(int i) { lengths[i] = strlen(texts[i]); }
static void canon(int i) { fcanon_canon(FCANON_FREECELL, boards + i, &other, passages + i); }

static void key(int i) { fcanon_key(FCANON_FREECELL, boards + i, &other); }
static void hashed(int i) { fcanon_hash(FCANON_FREECELL, boards + i, hash); }

static void read(int i) {
    size_t place;
    fcanon_read(FCANON_FREECELL, texts[i], lengths[i], &other, &place);
}

static void carry(int i) {
    fcanon_move move = first;
    fcanon_carry(FCANON_FREECELL, passages + i, &move);
}

static void play(int i) {
    fcanon_board board = boards[i];
    fcanon_play(FCANON_FREECELL, &board, &first);
}

static double seconds(void (*call)(int)) {
    double best = 1e9;
    for (int turn = 0; turn < TURNS; turn++) {
        clock_t began = clock();
        for (int i = 0; i < DEALS; i++) call(i);
        double taken = (double)(clock() - began) / CLOCKS_PER_SEC;
        if (taken < best) best = taken;
    }
    return best;
}

static void measure(const char *name, void (*call)(int)) { printf("%-8s%8.2f\n", name, seconds(call) / DEALS * 1e6); }

int main(void) {
    puts("\ncall    microseconds");
    measure("deal", deal);
    measure("write", write);
    for (int i = 0; i < DEALS; i++) length(i);
    measure("read", read);
    measure("canon", canon);
    measure("key", key);
    measure("hash", hashed);
    measure("carry", carry);
    measure("play", play);
    return 0;
}
