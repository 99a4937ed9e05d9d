/* layout.c: what the library assumes of the layout of C's types. It is compiled, and not run. */
#include "fcanon.h"

#define ASSERT(name, test) typedef char name[(test) ? 1 : -1]

ASSERT(board_size, sizeof(fcanon_board) == 72);
ASSERT(board_cells, offsetof(fcanon_board, cells) == 4);
ASSERT(board_lengths, offsetof(fcanon_board, lengths) == 12);
ASSERT(board_cards, offsetof(fcanon_board, cards) == 20);
ASSERT(passage_size, sizeof(fcanon_passage) == 20);
ASSERT(passage_columns, offsetof(fcanon_passage, columns) == 4);
ASSERT(passage_cells, offsetof(fcanon_passage, cells) == 12);
ASSERT(move_size, sizeof(fcanon_move) == 2);
ASSERT(run_size, sizeof(fcanon_run_move) == 3);
ASSERT(run_count, offsetof(fcanon_run_move, count) == 2);
ASSERT(class_sums_size, sizeof(fcanon_class_sums) == 384);
ASSERT(child_hash_size, sizeof(fcanon_child_hash) == 18 && offsetof(fcanon_child_hash, hash) == 2);
ASSERT(further_answers, FCANON_NO_COLUMN == 8 && FCANON_NO_ROOM == 9 && FCANON_WRONG_COUNT == 40 && FCANON_REPEATED_LINE == 64);
ASSERT(closed_answers, FCANON_NOT_CANONICAL == 16 && FCANON_OPEN == 19 && FCANON_NOT_AMONG == 21);
ASSERT(answers, FCANON_NO_DEAL == 7 && FCANON_NOT_NEXT == 37 && FCANON_REPEATED_CARD == 69);
ASSERT(missing_cards, FCANON_FIRST_MISSING_CARD == 128 && FCANON_LAST_MISSING_CARD == 179);
