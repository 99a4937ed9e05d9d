/* choose-run.c: the calls of fcanon_runs.h as they were compiled for x86-64-v2 where the processor has
 * that, and else as they were for every x86-64. The compiler holds these lines against fcanon_runs.h. */
#include "fcanon_runs.h"
#include "x86-64.h"

CALL(uint32_t, fcanon_run,
     (const fcanon_request *request, const char *input, size_t input_size, char *output,
      size_t output_size, fcanon_written *written),
     (request, input, input_size, output, output_size, written))
CALL(uint32_t, fcanon_import,
     (const fcanon_import_request *request, const char *input, size_t input_size, char *output,
      size_t output_size, char *notes, size_t notes_size, fcanon_imported *imported),
     (request, input, input_size, output, output_size, notes, notes_size, imported))
