/* first.c: prints the canonical board of Microsoft's deal 1, and the move 3a as it is made there. */
#include <fcanon.h>
#include <stdio.h>
int main(void) {
    fcanon_board board, canonical;
    fcanon_passage passage;
    fcanon_move move = {'3', 'a'};
    char text[256];
    if (fcanon_deal(FCANON_FREECELL, 1, &board)) return 1;
    if (fcanon_canon(FCANON_FREECELL, &board, &canonical, &passage)) return 1;
    if (fcanon_write(FCANON_FREECELL, &canonical, text)) return 1;
    if (fcanon_carry(FCANON_FREECELL, &passage, &move)) return 1;
    printf("%s> %c%c\n", text, move.from, move.to);
    return 0;
}
