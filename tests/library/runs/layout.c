/* layout.c: what the library of runs assumes of the layout of C's types. It is compiled, and not run. */
#include "fcanon_runs.h"

#define ASSERT(name, test) typedef char name[(test) ? 1 : -1]

ASSERT(request_size, sizeof(fcanon_request) == 24);
ASSERT(request_format, offsetof(fcanon_request, format) == 4);
ASSERT(request_game, offsetof(fcanon_request, game) == 8);
ASSERT(request_any_size, offsetof(fcanon_request, any_size) == 12);
ASSERT(request_seed, offsetof(fcanon_request, seed) == 16);
ASSERT(written_size, sizeof(fcanon_written) == 24);
ASSERT(written_records, offsetof(fcanon_written, records) == 8);
ASSERT(written_refused, offsetof(fcanon_written, refused) == 16);
