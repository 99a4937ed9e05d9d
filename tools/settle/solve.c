/* solve GAME FIRST LAST WORD ..: for each deal that Freecell Solver's library solves, a line with its number and
 * the moves, as `fcanon` reads them after `>>`. WORDs are options of fc-solve.
 *
 *   cc solve.c -I build build/libfcanon.a -lfreecell-solver -o solve
 *   ./solve freecell 1 10 -l lg
 */
#include <fcanon.h>
#include <freecell-solver/fcs_cl.h>
#include <freecell-solver/fcs_enums.h>
#include <freecell-solver/fcs_user.h>
#include <inttypes.h>
#include <stdio.h>
#include <stdlib.h>

/* Prints a move of the solver's; how many cards go is said of all moves from column to column. */
static void print_move(fcs_move_t move) {
    int from = fcs_move_get_src_stack(move), to = fcs_move_get_dest_stack(move);
    switch (fcs_move_get_type(move)) {
    case FCS_MOVE_TYPE_STACK_TO_STACK: printf(" %d%dv%x", from + 1, to + 1, fcs_move_get_num_cards_in_seq(move)); break;
    case FCS_MOVE_TYPE_STACK_TO_FREECELL: printf(" %d%c", from + 1, 'a' + to); break;
    case FCS_MOVE_TYPE_FREECELL_TO_STACK: printf(" %c%d", 'a' + from, to + 1); break;
    case FCS_MOVE_TYPE_FREECELL_TO_FREECELL: printf(" %c%c", 'a' + from, 'a' + to); break;
    case FCS_MOVE_TYPE_STACK_TO_FOUNDATION: printf(" %dh", from + 1); break;
    case FCS_MOVE_TYPE_FREECELL_TO_FOUNDATION: printf(" %ch", 'a' + from); break;
    }
}

static void print_solution(uint32_t deal, void *solver) {
    fcs_move_t move;
    printf("%" PRIu32, deal);
    while (!freecell_solver_user_get_next_move(solver, &move)) print_move(move);
    putchar('\n');
}

/* Takes the game and the options; ends the program where the library knows one of them not. */
static void *new_solver(const char *game, int count, char **options) {
    void *solver = freecell_solver_user_alloc();
    char *error = NULL;
    int last;
    if (freecell_solver_user_apply_preset(solver, game) ||
        freecell_solver_user_cmd_line_parse_args(solver, count, (const char **)options, 0, NULL, NULL, NULL, &error, &last)) {
        fprintf(stderr, "solve: %s\n", error ? error : game);
        exit(2);
    }
    return solver;
}

int main(int count, char **words) {
    if (count < 4) return fprintf(stderr, "usage: solve freecell|bakers_game FIRST LAST WORD ..\n"), 2;
    uint32_t game = words[1][0] == 'b' ? FCANON_BAKERS_GAME : FCANON_FREECELL;
    uint32_t first = (uint32_t)strtoul(words[2], NULL, 10), last = (uint32_t)strtoul(words[3], NULL, 10);
    void *solver = new_solver(words[1], count - 4, words + 4);
    for (uint32_t deal = first; deal <= last; deal++) {
        fcanon_board board;
        char text[256];
        if (fcanon_deal(game, deal, &board) || fcanon_write(game, &board, text))
            return fprintf(stderr, "solve: there is no deal %" PRIu32 "\n", deal), 2;
        if (freecell_solver_user_solve_board(solver, text) == FCS_STATE_WAS_SOLVED) print_solution(deal, solver);
        freecell_solver_user_recycle(solver);
    }
    return fflush(stdout) ? 3 : 0;
}
