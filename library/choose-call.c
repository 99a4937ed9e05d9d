/* choose-call.c: each call of fcanon.h as it was compiled for x86-64-v2 where the processor has that, and
 * else as it was for every x86-64. The compiler holds these lines against fcanon.h. */
#include "fcanon.h"
#include "x86-64.h"

CALL(uint32_t, fcanon_version, (void), ())
CALL(void, fcanon_find_answer_text, (uint32_t answer, const char **text), (answer, text))
CALL(uint32_t, fcanon_read,
     (uint32_t game, const char *text, size_t length, fcanon_board *board, size_t *place),
     (game, text, length, board, place))
CALL(uint32_t, fcanon_write,
     (uint32_t game, const fcanon_board *board, char text[256]),
     (game, board, text))
CALL(uint32_t, fcanon_canon,
     (uint32_t game, const fcanon_board *board, fcanon_board *canonical, fcanon_passage *passage),
     (game, board, canonical, passage))
CALL(uint32_t, fcanon_key,
     (uint32_t game, const fcanon_board *board, fcanon_board *key),
     (game, board, key))
CALL(uint32_t, fcanon_keys,
     (uint32_t game, fcanon_board *boards, size_t count, size_t *place),
     (game, boards, count, place))
CALL(uint32_t, fcanon_closed,
     (uint32_t game, const fcanon_board *keys, size_t count, size_t *place, fcanon_move *move),
     (game, keys, count, place, move))
CALL(uint32_t, fcanon_unsolvable,
     (uint32_t game, const fcanon_board *board, const fcanon_board *keys, size_t count),
     (game, board, keys, count))
CALL(uint32_t, fcanon_hash,
     (uint32_t game, const fcanon_board *board, uint8_t hash[16]),
     (game, board, hash))
CALL(uint32_t, fcanon_sums,
     (uint32_t game, const fcanon_board *board, fcanon_class_sums *sums),
     (game, board, sums))
CALL(uint32_t, fcanon_move_sums,
     (uint32_t game, uint8_t card, uint8_t from, uint8_t onto, fcanon_class_sums *sums),
     (game, card, from, onto, sums))
CALL(uint32_t, fcanon_class_hash,
     (uint32_t game, const fcanon_class_sums *sums, uint8_t hash[16]),
     (game, sums, hash))
CALL(uint32_t, fcanon_child,
     (uint32_t game, const fcanon_board *board, const fcanon_move *move, fcanon_board *canonical,
      fcanon_passage *passage),
     (game, board, move, canonical, passage))
CALL(uint32_t, fcanon_symmetries,
     (uint32_t game, const fcanon_board *board, uint8_t suits[24][4], uint32_t *count),
     (game, board, suits, count))
CALL(uint32_t, fcanon_same,
     (uint32_t game, const fcanon_board *board, const fcanon_board *other, fcanon_passage *passage),
     (game, board, other, passage))
CALL(uint32_t, fcanon_inverse,
     (uint32_t game, const fcanon_passage *passage, fcanon_passage *inverse),
     (game, passage, inverse))
CALL(uint32_t, fcanon_then,
     (uint32_t game, const fcanon_passage *first, const fcanon_passage *next, fcanon_passage *both),
     (game, first, next, both))
CALL(uint32_t, fcanon_image,
     (uint32_t game, const fcanon_passage *passage, const fcanon_board *board, fcanon_board *image),
     (game, passage, board, image))
CALL(uint32_t, fcanon_carry,
     (uint32_t game, const fcanon_passage *passage, fcanon_move *move),
     (game, passage, move))
CALL(uint32_t, fcanon_play,
     (uint32_t game, fcanon_board *board, const fcanon_move *move),
     (game, board, move))
CALL(uint32_t, fcanon_capacity,
     (uint32_t game, const fcanon_board *board, uint8_t to, uint32_t *cards),
     (game, board, to, cards))
CALL(uint32_t, fcanon_carry_run,
     (uint32_t game, const fcanon_passage *passage, fcanon_run_move *run),
     (game, passage, run))
CALL(uint32_t, fcanon_play_run,
     (uint32_t game, fcanon_board *board, const fcanon_run_move *run),
     (game, board, run))
CALL(uint32_t, fcanon_expand,
     (uint32_t game, const fcanon_board *board, const fcanon_run_move *run, fcanon_move *moves,
      size_t room, size_t *count),
     (game, board, run, moves, room, count))
CALL(uint32_t, fcanon_moves,
     (uint32_t game, const fcanon_board *board, fcanon_move *moves, size_t room, size_t *count),
     (game, board, moves, room, count))
CALL(uint32_t, fcanon_run_moves,
     (uint32_t game, const fcanon_board *board, fcanon_run_move *runs, size_t room, size_t *count),
     (game, board, runs, room, count))
CALL(uint32_t, fcanon_children,
     (uint32_t game, const fcanon_board *board, fcanon_move *moves, size_t moves_room,
      fcanon_board *keys, size_t keys_room, size_t *count),
     (game, board, moves, moves_room, keys, keys_room, count))
CALL(uint32_t, fcanon_child_hashes,
     (uint32_t game, const fcanon_board *board, const fcanon_class_sums *sums,
      fcanon_child_hash *children, size_t room, size_t *count),
     (game, board, sums, children, room, count))
CALL(uint32_t, fcanon_known_child_hashes,
     (uint32_t game, const fcanon_board *board, const fcanon_class_sums *sums,
      fcanon_child_hash *children, size_t room, size_t *count),
     (game, board, sums, children, room, count))
CALL(uint32_t, fcanon_deal, (uint32_t game, uint32_t number, fcanon_board *board), (game, number, board))
