/* fcanon-program.c: fcanon's commands as a program for Windows, and for what else has a C compiler, over the
 * calls of fcanon_runs.h and fcanon.h. It reads all of standard input before it prints. The program for
 * Linux has four options more, and shows how far it is. Nothing proves this file. */
#define _CRT_RAND_S /* so that Windows declares rand_s */
#include "fcanon_runs.h"
#include <signal.h>
#include <stdio.h>
#include <stdlib.h>
#include <time.h>
#ifdef _WIN32
#include <fcntl.h>
#include <io.h>
#define END_OF_INPUT "Ctrl-Z and Enter"
#else
#include <unistd.h>
#define END_OF_INPUT "Ctrl-D"
#endif

/* The commands: those that fcanon_runs.h numbers, and two more. */
enum { IMPORT = FCANON_TASKS, DEAL, COMMANDS };
static const char *const commands[] = {
    [FCANON_TASK_SHOW] = "show", [FCANON_TASK_CANON] = "canon", [FCANON_TASK_CHECK] = "check",
    [FCANON_TASK_GROUP] = "group", [FCANON_TASK_SHARE] = "share", [FCANON_TASK_EXPAND] = "expand",
    [FCANON_TASK_UNIQUE] = "unique", [FCANON_TASK_TABLE] = "table", [FCANON_TASK_SAME] = "same",
    [FCANON_TASK_SYMMETRIES] = "symmetries", [FCANON_TASK_COUNT] = "count", [FCANON_TASK_CLOSED] = "closed",
    [IMPORT] = "import", [DEAL] = "deal"};
static const char *const games[] = {"freecell", "bakers_game", "eight_off"};

/* The options without a value, and which commands have them. */
enum { ANY_SIZE = 1, JSON = 2, HEADER = 4, COLUMNS = 8, ROWS = 16 };
static const struct { const char *name; unsigned number, commands; } options[] = {
    {"--any-size", ANY_SIZE, (1 << FCANON_TASKS) - 1},
    {"--json", JSON, 1 << FCANON_TASK_TABLE | 1 << FCANON_TASK_COUNT | 1 << FCANON_TASK_CLOSED},
    {"--header", HEADER, 1 << FCANON_TASK_TABLE},
    {"--columns", COLUMNS, 1 << IMPORT},
    {"--rows", ROWS, 1 << IMPORT}};

static const char help[] =
    "Canonical boards of FreeCell, Baker's Game and Eight Off\n\n"
    "Usage: fcanon COMMAND [OPTIONS] < FILE\n"
    "       fcanon deal [OPTIONS] N\n\n"
    "Commands: show canon check group share expand unique table same symmetries\n"
    "  count closed import deal\n\n"
    "Options, after the command:\n"
    "  --variant VARIANT  The game of a board without a header: freecell,\n"
    "                     bakers_game or eight_off\n"
    "  --any-size         Read more than 65536 records or 16 MiB\n"
    "  --json             of table, count, closed: print JSON in place of lines\n"
    "  --header           of table: print a line with the names of the columns\n"
    "  --columns, --rows  of import: take lines of cards for columns, or for rows\n\n"
    "Status: 0 if all was accepted, 1 if something was refused, 2 if the command\n"
    "line was refused or the deal number is out of range, 3 if the run gave up.\n";

/* What the words ask for. */
typedef struct { uint32_t command, game; unsigned options; const char *number; } Words;

static void refuse(const char *why, const char *word) {
    fprintf(stderr, "fcanon: %s%s\nfcanon help says what may be written.\n", why, word);
    exit(2);
}

static void give_up(const char *why) {
    fprintf(stderr, "fcanon: %s\n", why);
    exit(3);
}

static uint32_t place_of(const char *word, const char *const *words, uint32_t count) {
    uint32_t place = 0;
    while (place < count && strcmp(word, words[place])) place++;
    return place;
}

/* The number of an option that this command has, or 0. */
static unsigned option_of(const char *word, uint32_t command) {
    for (size_t at = 0; at < sizeof options / sizeof *options; at++)
        if (!strcmp(word, options[at].name) && options[at].commands >> command & 1) return options[at].number;
    return 0;
}

static Words read_words(char **words) {
    Words it = {place_of(*words, commands, COMMANDS), 3, 0, NULL};
    if (it.command == COMMANDS) refuse("no such command: ", *words);
    while (*++words) {
        unsigned option = option_of(*words, it.command);
        if (it.game == 3 && !strncmp(*words, "--variant", 9) && (!(*words)[9] || (*words)[9] == '=')) {
            const char *game = (*words)[9] ? *words + 10 : words[1] ? *++words : "";
            if ((it.game = place_of(game, games, 3)) == 3) refuse("no such game: ", game);
        } else if (option && !(it.options & option)) {
            it.options |= option;
        } else if (it.command == DEAL && !it.number) {
            it.number = *words;
        } else {
            refuse("this program knows no such word here, or not twice: ", *words);
        }
    }
    it.game %= 3;
    return it;
}

/* Prints a deal; its number may begin with a plus sign. */
static int deal(const Words *it) {
    const char *digits = it->number ? it->number + (*it->number == '+') : "";
    fcanon_board board;
    char text[256];
    if (it->game == FCANON_EIGHT_OFF) refuse("no deals are numbered in the game ", games[it->game]);
    if (!*digits || digits[strspn(digits, "0123456789")]) refuse("the number of a deal must come after deal", "");
    unsigned long long number = strtoull(digits, NULL, 10); /* the largest one where there are too many digits */
    if (number > UINT32_MAX || fcanon_deal(it->game, (uint32_t)number, &board)) {
        fputs("fcanon: deal number out of range\n", stderr);
        return 2;
    }
    if (fcanon_write(it->game, &board, text) || printf("%s", text) < 0 || fflush(stdout)) give_up("write fault");
    return 0;
}

static void *with_room(void *held, size_t size) {
    void *made = realloc(held, size);
    if (!made) give_up("out of memory");
    return made;
}

/* All of standard input, or more than one run reads; `is_any` leaves it no end. */
static char *read_input(int is_any, size_t *size) {
    size_t room = 1 << 16;
    char *text = NULL;
    do {
        text = with_room(text, room *= 2);
        *size += fread(text + *size, 1, room - *size, stdin);
    } while (*size == room && (is_any || *size <= 16 << 20));
    if (ferror(stdin)) give_up("read fault");
    return text;
}

static uint64_t by_chance(void) {
#ifdef _WIN32
    unsigned low = 0, high = 0;
    if (!rand_s(&low) && !rand_s(&high)) return (uint64_t)high << 32 | low;
#endif
    return (uint64_t)time(NULL) * 0x9e3779b97f4a7c15u ^ (uintptr_t)&help;
}

/* Does a command over standard input. */
static int run(const Words *it) {
    unsigned form = it->options & JSON ? FCANON_FORMAT_JSON : it->options & HEADER ? FCANON_FORMAT_HEADER : FCANON_FORMAT_LINES;
    unsigned lines = it->options & COLUMNS ? FCANON_LINES_COLUMNS : it->options & ROWS ? FCANON_LINES_ROWS : FCANON_LINES_UNSAID;
    fcanon_request request = {it->command, form, it->game, it->options & ANY_SIZE, by_chance()};
    fcanon_import_request import = {it->game, lines};
    size_t size = 0;
    char *input = read_input(it->options & ANY_SIZE, &size), *output = NULL, *notes = NULL;
    fcanon_imported made = {{2 * size + 4096, 0, 0}, 4096};
    uint32_t answer;
    do {
        size_t room = made.written.length, notes_room = made.noted;
        output = with_room(output, room);
        notes = with_room(notes, notes_room);
        answer = it->command == IMPORT
            ? fcanon_import(&import, input, size, output, room, notes, notes_room, &made)
            : fcanon_run(&request, input, size, output, room, &made.written);
    } while (answer == 9);
    if (answer) give_up(answer == 12 ? "out of memory" : answer == 13 ? "input too large" : "reader never ends");
    if (it->command == IMPORT) fwrite(notes, 1, made.noted, stderr);
    if (fwrite(output, 1, made.written.length, stdout) != made.written.length || fflush(stdout)) give_up("write fault");
    return made.written.refused > 0;
}

int main(int count, char **words) {
#ifdef _WIN32
    for (int stream = 0; stream < 3; stream++) _setmode(stream, _O_BINARY);
#else
    signal(SIGPIPE, SIG_IGN); /* so that a closed pipe is a write fault */
#endif
    if (count < 2) return fputs(help, stderr), 2;
    if (!strcmp(words[1], "--version") || !strcmp(words[1], "-V")) return puts("fcanon " FCANON_RELEASE), 0;
    for (int at = 1; at < count; at++)
        if (!strcmp(words[at], "help") || !strcmp(words[at], "--help") || !strcmp(words[at], "-h")) return fputs(help, stdout), 0;
    Words it = read_words(words + 1);
    if (it.command == DEAL) return deal(&it);
    if (isatty(0)) fputs("fcanon: reading standard input up to " END_OF_INPUT "; to read a file, add < FILE\n", stderr);
    return run(&it);
}
