/* search.c: looks for a solution of a board of any game, and knows a state again by the hash of its class. To be compared with that
 * it also knows states as solvers mostly do: by a hash that follows each move, in which the orders of columns and cells do not count,
 * and the names of suits do. The sums of each state are kept and moved along: to make them anew costs more than the hashes after all
 * its moves.
 *
 *   cc -std=c99 -O2 search.c $(pkg-config --cflags --libs fcanon) -o search
 *   fcanon deal 617 | ./search 0 greedy 1000000 classes moves
 *
 * The words are the game's number; `breadth`, or `greedy`, which goes on from what looks best; how many states are kept at most, each
 * of some 120 bytes and of 128 for its sums, or 384 in other games than FreeCell; and how they are known, for each of which there is one search. It ends at a won board, of which it prints the moves
 * for the board that was given; where states are too many; or where all are known. Only 64 bits of a class hash are as good as
 * random: that two classes of a million have one is likely once in 37 million searches, and then a state is passed over.
 */
#include "fcanon.h"
#include <stdio.h>
#include <stdlib.h>
#include <string.h>
#include <time.h>

typedef struct hash { uint64_t low, high; } hash;

typedef struct state {
    fcanon_board board;
    hash hash;
    uint32_t before, next; /* the state that the move was made on; with greedy, the next state that looks as good */
    fcanon_move move;
} state;

enum { ROOM = FCANON_MOST_CHILDREN, LOOKS = 512 };
static const char PILES[] = "12345678abcdefgk"; /* columns, then cells */

static uint32_t game;
static state *states;
static unsigned char *kept_sums; /* of each state, as many bytes as the game's sums have */
static size_t sums_size;
static uint32_t *table; /* of states by their hashes: one more than a place, or 0 */
static size_t slots, most, count;
static uint32_t heads[LOOKS]; /* with greedy, the last state of each look, one more than its place */
static int is_greedy, is_full;

static int rank_of(uint8_t card) { return (card + 3) / 4; }
static int is_red(uint8_t card) { return card % 4 == 2 || card % 4 == 3; }

/* Whether the game builds a card on another. */
static int builds(uint8_t card, uint8_t on) {
    return rank_of(card) + 1 == rank_of(on) && (game == FCANON_FREECELL ? is_red(card) != is_red(on) : card % 4 == on % 4);
}

/* How far a board looks from won: by the cards that are not home, those in cells, and those on cards that do not build them. */
static int look(const fcanon_board *board) {
    const uint8_t *card = board->cards;
    int sum = 0, i, j;
    for (i = 0; i < 4; i++) sum += 3 * (13 - board->heights[i]);
    for (i = 0; i < 8; card += board->lengths[i++]) {
        sum += 2 * (board->cells[i] != 0);
        for (j = 1; j < board->lengths[i]; j++)
            sum += 2 * !builds(card[j], card[j - 1]) + (rank_of(card[j]) > rank_of(card[j - 1]));
    }
    return sum;
}

static void put_by_look(uint32_t at) {
    int looks = look(&states[at].board);
    states[at].next = heads[looks];
    heads[looks] = at + 1;
}

/* Keeps the board after a move, unless its hash is known. */
static void keep(uint32_t before, fcanon_move move, hash it) {
    size_t slot = it.low & (slots - 1);
    state *kept = &states[count];
    for (; table[slot]; slot = (slot + 1) & (slots - 1)) {
        const hash *known = &states[table[slot] - 1].hash;
        if (known->low == it.low && known->high == it.high) return;
    }
    is_full = count == most;
    if (is_full) return;
    kept->board = states[before].board;
    if (count && fcanon_play(game, &kept->board, &move)) exit(3);
    kept->hash = it, kept->before = before, kept->move = move;
    table[slot] = (uint32_t)++count;
    if (is_greedy) put_by_look((uint32_t)count - 1);
}

/* The last card of each pile, or 0, and what it lies on, as in fcanon.h. */
static void find_ends(const fcanon_board *board, uint8_t last[16], uint8_t under[16]) {
    int pile, end = 0;
    for (pile = 0; pile < 8; pile++) {
        end += board->lengths[pile];
        last[pile] = board->lengths[pile] ? board->cards[end - 1] : 0;
        under[pile] = board->lengths[pile] > 1 ? board->cards[end - 2] : FCANON_ON_FOOT;
    }
    for (; pile < 16; pile++) last[pile] = board->cells[pile - 8], under[pile] = FCANON_ON_CELL;
}

/* ---- by the hash of the class */

static hash first_class(const fcanon_board *board) {
    fcanon_class_sums sums;
    hash it;
    if (fcanon_sums(game, board, &sums) || fcanon_class_hash(game, &sums, (uint8_t *)&it)) exit(3);
    memcpy(kept_sums, &sums, sums_size);
    return it;
}

/* Keeps the sums of the last state, which a move made of a board with these sums and ends of piles. */
static void keep_sums(fcanon_move move, fcanon_class_sums sums, const uint8_t last[16], const uint8_t under[16]) {
    const long from = strchr(PILES, move.from) - PILES, to = move.to == 'h' ? 16 : strchr(PILES, move.to) - PILES;
    const uint8_t onto = to == 16 ? FCANON_ON_HOME : to >= 8 ? FCANON_ON_CELL : last[to] ? last[to] : FCANON_ON_FOOT;
    if (fcanon_move_sums(game, last[from], under[from], onto, &sums)) exit(3);
    memcpy(kept_sums + (count - 1) * sums_size, &sums, sums_size);
}

static void classes_after(uint32_t at) {
    static fcanon_child_hash children[ROOM];
    static fcanon_class_sums sums; /* 0 after those of the game */
    uint8_t last[16], under[16];
    size_t i, many, before;
    hash it = {0, 0};
    memcpy(&sums, kept_sums + at * sums_size, sums_size);
    /* The board is known, since calls made it. */
    if (fcanon_known_child_hashes(game, &states[at].board, &sums, children, ROOM, &many)) exit(3);
    find_ends(&states[at].board, last, under);
    for (i = 0; i < many; i++) {
        if (i && !memcmp(&it, children[i].hash, sizeof it)) continue; /* to another empty cell or column */
        memcpy(&it, children[i].hash, sizeof it);
        before = count;
        keep(at, children[i].move, it);
        if (count > before) keep_sums(children[i].move, sums, last, under);
    }
}

/* ---- by a hash that follows each move */

static hash lies[53][55]; /* for each card and what it lies on, as in fcanon.h */

static void make_numbers(void) {
    uint64_t x = 1, *number = (uint64_t *)lies;
    for (; number < (uint64_t *)(lies + 53); number++) {
        uint64_t z = x += 0x9e3779b97f4a7c15u; /* SplitMix64 */
        z = (z ^ z >> 30) * 0xbf58476d1ce4e5b9u, z = (z ^ z >> 27) * 0x94d049bb133111ebu;
        *number = z ^ z >> 31;
    }
}

static void follow(hash *it, uint8_t card, uint8_t from, uint8_t onto) {
    it->low += lies[card][onto].low - lies[card][from].low;
    it->high += lies[card][onto].high - lies[card][from].high;
}

static hash first_of_moves(const fcanon_board *board) {
    (void)board; /* the hash is of what moves change */
    make_numbers();
    return (hash){1, 1};
}

static void try_move(uint32_t at, char from, char to, uint8_t card, uint8_t off, uint8_t onto) {
    hash it = states[at].hash;
    follow(&it, card, off, onto);
    keep(at, (fcanon_move){(uint8_t)from, (uint8_t)to}, it);
}

/* All moves, but of those to empty cells and to empty columns the first alone. */
static void moves_after(uint32_t at) {
    const fcanon_board board = states[at].board;
    const int piles = game == FCANON_EIGHT_OFF ? 16 : 12;
    uint8_t last[16], under[16];
    int from, to, column = -1, cell = -1;
    find_ends(&board, last, under);
    for (from = piles - 1; from >= 8; from--)
        if (!last[from]) cell = from;
    for (from = 7; from >= 0; from--)
        if (!last[from]) column = from;
    for (from = 0; from < piles; from++) {
        const uint8_t card = last[from];
        if (!card) continue;
        if (board.heights[(card - 1) % 4] + 1 == rank_of(card)) try_move(at, PILES[from], 'h', card, under[from], FCANON_ON_HOME);
        for (to = 0; to < 8; to++)
            if (to != from && last[to] && builds(card, last[to])) try_move(at, PILES[from], PILES[to], card, under[from], last[to]);
        if (column >= 0 && under[from] != FCANON_ON_FOOT && (game != FCANON_EIGHT_OFF || rank_of(card) == 13))
            try_move(at, PILES[from], PILES[column], card, under[from], FCANON_ON_FOOT);
        if (cell >= 0 && from < 8) try_move(at, PILES[from], PILES[cell], card, under[from], FCANON_ON_CELL);
    }
}

/* ---- the search */

static void print_moves(uint32_t at) {
    if (!at) { fputs(">", stdout); return; }
    print_moves(states[at].before);
    printf(" %c%c", states[at].move.from, states[at].move.to);
}

/* The next state to go on from, one more than its place; or 0. */
static uint32_t next_state(uint32_t taken) {
    int looks;
    uint32_t it;
    if (!is_greedy) return taken < count ? taken + 1 : 0;
    for (looks = 0; looks < LOOKS && !heads[looks]; looks++) continue;
    it = looks < LOOKS ? heads[looks] : 0;
    if (it) heads[looks] = states[it - 1].next;
    return it;
}

static void search(const char *way, const fcanon_board *board) {
    const int by_class = !strcmp(way, "classes");
    const clock_t began = clock();
    uint32_t taken = 0, at, won = 0;
    memset(table, 0, slots * sizeof *table), memset(heads, 0, sizeof heads);
    count = 0, states[0].board = *board;
    keep(0, (fcanon_move){0, 0}, by_class ? first_class(board) : first_of_moves(board));
    for (is_full = 0; !won && !is_full && (at = next_state(taken)); taken++) {
        if (fcanon_is_won(&states[at - 1].board)) won = at;
        else if (by_class) classes_after(at - 1);
        else moves_after(at - 1);
    }
    printf("%s: %s, %lu states kept, %lu gone on from, %.2f s\n", way, won ? "won" : is_full ? "too many states" : "no solution found",
           (unsigned long)count, (unsigned long)taken, (double)(clock() - began) / CLOCKS_PER_SEC);
    if (won) print_moves(won - 1), putchar('\n');
}

int main(int argc, char **argv) {
    static char text[65536];
    fcanon_board board;
    size_t place;
    int i;
    if (argc < 5 || atoi(argv[1]) > FCANON_EIGHT_OFF)
        return fputs("usage: search 0|1|2 breadth|greedy STATES classes|moves .. < board.txt\n", stderr), 2;
    game = (uint32_t)atoi(argv[1]), is_greedy = !strcmp(argv[2], "greedy"), most = (size_t)strtoul(argv[3], NULL, 10);
    if (fcanon_read(game, text, fread(text, 1, sizeof text, stdin), &board, &place)) return fputs("this is no board\n", stderr), 2;
    for (slots = 1024; slots < 2 * most; slots *= 2) continue;
    sums_size = (game == FCANON_FREECELL ? 8 : 24) * sizeof(uint64_t[2]);
    states = malloc((most + 1) * sizeof *states), table = malloc(slots * sizeof *table), kept_sums = malloc((most + 1) * sums_size);
    if (!states || !table || !kept_sums) return fputs("there is no memory for so many states\n", stderr), 3;
    for (i = 4; i < argc; i++) search(argv[i], &board);
    return fflush(stdout) ? 3 : 0;
}
