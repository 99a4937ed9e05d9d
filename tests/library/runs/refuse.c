/* refuse: refuses memory to the calls of fcanon_runs.h, over the collection on standard input.
 *
 * Each command and an import are called with request 1, 2, .. for memory refused, alone and with all later ones, until a
 * call asks for fewer. A call that was refused memory answers 12 and writes nothing, or does what it does with all
 * memory; no call keeps a block. With a byte too little room a call answers 9 and writes lengths and counts alone, and
 * with just enough room it is done. Each call that does otherwise has one line. The last line is `N passed, M failed`.
 *
 * It is linked with --wrap=malloc,--wrap=realloc,--wrap=free, so that the library's requests come here. */
#include "fcanon_runs.h"
#include <stdbool.h>
#include <stdio.h>
#include <stdlib.h>
#include <string.h>

enum { IMPORT = FCANON_TASKS, TASKS };
enum { DONE = 0, NO_ROOM = 9, NO_MEMORY = 12 };
enum { INPUT = 1 << 16, OUTPUT = 1 << 18, NOTES = 1 << 16, UNTOUCHED = 'z' };

/* What a call answers and what it leaves of what it may write. */
struct outcome {
    uint32_t answer;
    fcanon_imported imported;
    char output[OUTPUT], notes[NOTES];
};

struct room {
    size_t output, notes;
};

static char input[INPUT];
static size_t input_size;
static struct outcome untouched, whole, tried;
static const struct room ample = {OUTPUT, NOTES};

/* The requests of a call: how many it made, the first that is refused, or 0, and the blocks that are not given back. */
static struct {
    long made, refused, held;
    bool are_later_refused;
} requests;

static long passed, failed;

static bool is_refused(void) {
    long number = ++requests.made;
    return number == requests.refused
        || (requests.are_later_refused && requests.refused && number > requests.refused);
}

void *__real_malloc(size_t size);
void *__real_realloc(void *block, size_t size);
void __real_free(void *block);

void *__wrap_malloc(size_t size) {
    void *block = is_refused() ? NULL : __real_malloc(size);
    requests.held += block != NULL;
    return block;
}

void *__wrap_realloc(void *block, size_t size) {
    if (!block) return __wrap_malloc(size);
    return is_refused() ? NULL : __real_realloc(block, size);
}

void __wrap_free(void *block) {
    requests.held -= block != NULL;
    __real_free(block);
}

static void call(int task, struct room room, struct outcome *made) {
    memcpy(made, &untouched, sizeof untouched);
    requests.made = 0;
    if (task == IMPORT) {
        fcanon_import_request request = {.game = FCANON_FREECELL, .lines = FCANON_LINES_UNSAID};
        made->answer = fcanon_import(&request, input, input_size, made->output, room.output, made->notes, room.notes,
            &made->imported);
    } else {
        fcanon_request request = {.task = (uint32_t)task, .format = FCANON_FORMAT_LINES, .seed = 7};
        made->answer = fcanon_run(&request, input, input_size, made->output, room.output, &made->imported.written);
    }
}

static bool has_same_texts(const struct outcome *one, const struct outcome *other) {
    return !memcmp(one->output, other->output, OUTPUT) && !memcmp(one->notes, other->notes, NOTES);
}

static bool has_same_counts(const struct outcome *one, const struct outcome *other) {
    return !memcmp(&one->imported, &other->imported, sizeof one->imported);
}

static bool ends_with_its_texts(const struct outcome *it) {
    size_t length = it->imported.written.length, noted = it->imported.noted <= NOTES ? it->imported.noted : 0;
    return !memcmp(it->output + length, untouched.output, OUTPUT - length)
        && !memcmp(it->notes + noted, untouched.notes, NOTES - noted);
}

static bool is_as(const struct outcome *one, uint32_t answer, const struct outcome *counts, const struct outcome *texts) {
    return one->answer == answer && has_same_counts(one, counts) && has_same_texts(one, texts);
}

static void expect(bool is_so, int task, const char *what) {
    bool is_well = is_so && requests.held == 0;
    passed += is_well;
    failed += !is_well;
    if (!is_well) {
        printf("task %d, request %ld, %s: answer %u, %ld blocks kept\n", task, requests.refused, what, (unsigned)tried.answer,
            requests.held);
    }
    requests.held = 0;
}

/* Refuses each request of a call in turn. */
static void refuse_each(int task, bool are_later_refused) {
    requests.are_later_refused = are_later_refused;
    for (requests.refused = 1;; requests.refused++) {
        call(task, ample, &tried);
        if (requests.made < requests.refused) break;
        expect(is_as(&tried, NO_MEMORY, &untouched, &untouched) || is_as(&tried, DONE, &whole, &whole), task, "memory");
    }
    expect(requests.refused > 1, task, "a call that asks for no memory");
    requests.refused = 0;
}

static void try_room(int task, struct room room, bool is_enough, const char *what) {
    call(task, room, &tried);
    expect(is_as(&tried, is_enough ? DONE : NO_ROOM, &whole, is_enough ? &whole : &untouched), task, what);
}

static void try_rooms(int task) {
    size_t length = whole.imported.written.length, noted = task == IMPORT ? whole.imported.noted : 0;
    try_room(task, (struct room){length, noted}, true, "just enough room");
    if (length) try_room(task, (struct room){length - 1, noted}, false, "too little room");
    if (noted) try_room(task, (struct room){length, noted - 1}, false, "too little room for notes");
}

int main(void) {
    input_size = fread(input, 1, sizeof input, stdin);
    memset(&untouched, UNTOUCHED, sizeof untouched);
    for (int task = 0; task < TASKS; task++) {
        call(task, ample, &whole);
        tried.answer = whole.answer;
        expect(whole.answer == DONE && ends_with_its_texts(&whole), task, "all memory");
        if (whole.answer != DONE) continue;
        refuse_each(task, false);
        refuse_each(task, true);
        try_rooms(task);
    }
    printf("%ld passed, %ld failed\n", passed, failed);
    return failed != 0;
}
