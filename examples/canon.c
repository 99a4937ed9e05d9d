/* canon.c: reads the text of a board, and prints its canonical board, the passage there, and a list of moves carried
 * along, as `fcanon canon` does.
 *
 *   cc -std=c99 canon.c -I build build/libfcanon.a -o canon
 *   ./canon 0 3a 32 7a < board.txt
 */
#include "fcanon.h"
#include <stdio.h>
#include <stdlib.h>

static char text[65536];

int main(int argc, char **argv) {
    uint32_t game = argc > 1 ? (uint32_t)atoi(argv[1]) : FCANON_FREECELL, answer;
    size_t length = fread(text, 1, sizeof text, stdin), place = 0;
    fcanon_board board, canonical;
    fcanon_passage passage;
    char printed[256];
    int i;

    if (fcanon_version() != FCANON_VERSION) return puts("another version of the library"), 2;
    answer = fcanon_read(game, text, length, &board, &place);
    if (answer) return printf("answer %u at byte %zu\n", (unsigned)answer, place), 1;
    if (fcanon_canon(game, &board, &canonical, &passage) || fcanon_write(game, &canonical, printed))
        return puts("never"), 2; /* both answer 0: the game and the board are there */
    fputs(printed, stdout);

    printf("# renaming ");
    for (i = 0; i < 4; i++) putchar("CDHS"[passage.suits[i]]);
    printf(" columns ");
    for (i = 0; i < 8; i++) putchar('1' + passage.columns[i]);
    printf(" cells ");
    for (i = 0; i < (game == FCANON_EIGHT_OFF ? 8 : 4); i++) putchar("abcdefgk"[passage.cells[i]]);
    putchar('\n');

    if (argc > 2) putchar('>');
    for (i = 2; i < argc; i++) {
        fcanon_move move = {(uint8_t)argv[i][0], (uint8_t)argv[i][1]};
        uint32_t here = fcanon_play(game, &board, &move);
        if (fcanon_carry(game, &passage, &move)) return printf(" %s is no move\n", argv[i]), 1;
        if (fcanon_play(game, &canonical, &move) != here) return puts(" never"), 2; /* both boards play alike */
        printf(" %c%c", move.from, move.to);
    }
    if (argc > 2) putchar('\n');
    return 0;
}
