/* expand.c: reads the text of a board and plays moves of several cards on it, and prints the moves of one card for them.
 *
 *   cc -std=c99 expand.c -I build build/libfcanon.a -o expand
 *   ./expand 0 13 14v3 < board.txt
 */
#include "fcanon.h"
#include <stdio.h>
#include <stdlib.h>
#include <string.h>

static char text[65536];

/* The move that a word of standard notation in lower case names: two piles, and v and a hexadecimal digit or not. */
static fcanon_run_move run_of(const char *word) {
    const char *number = strlen(word) == 4 && word[2] == 'v' ? word + 3 : "0";
    fcanon_run_move run = {(uint8_t)word[0], (uint8_t)word[1], (uint8_t)strtol(number, NULL, 16)};
    return run;
}

int main(int argc, char **argv) {
    uint32_t game = argc > 1 ? (uint32_t)atoi(argv[1]) : FCANON_FREECELL, answer;
    size_t length = fread(text, 1, sizeof text, stdin), place = 0, count, i;
    fcanon_board board;
    fcanon_move moves[FCANON_MOST_MOVES];
    int k;

    answer = fcanon_read(game, text, length, &board, &place);
    if (answer) return printf("answer %u at byte %zu\n", (unsigned)answer, place), 1;
    putchar('>');
    for (k = 2; k < argc; k++) {
        fcanon_run_move run = run_of(argv[k]);
        answer = fcanon_expand(game, &board, &run, moves, FCANON_MOST_MOVES, &count);
        if (answer) return printf("\n%s is refused: answer %u\n", argv[k], (unsigned)answer), 1;
        for (i = 0; i < count; i++) printf(" %c%c", moves[i].from, moves[i].to);
        if (fcanon_play_run(game, &board, &run)) return puts(" never"), 2; /* it answers 0, as fcanon_expand did */
    }
    putchar('\n');
    return 0;
}
