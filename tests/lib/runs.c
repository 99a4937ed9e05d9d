/* Runs the program that it is loaded into before its libraries, as often as it is asked to.
 *
 * It takes the place of __libc_start_main, which is called when the loader has done its work and nothing of the program
 * has run. There it reads requests from standard input, makes for each a process of its own in which the program begins,
 * and answers on standard output. So a run is what it always is, but is neither loaded nor linked anew.
 *
 * First comes GREETING. A request has the numbers of `struct request`, the words with a NUL after each, the size of each
 * piece, and their text. An answer has the numbers of `struct answer`, what was printed and what was said.
 */
#define _GNU_SOURCE
#include <dlfcn.h>
#include <pty.h>
#include <stdint.h>
#include <string.h>
#include <sys/mman.h>
#include <sys/socket.h>
#include <sys/wait.h>
#include <termios.h>
#include <unistd.h>

enum { SECONDS = 300, WORDS = 64, WORD_BYTES = 4096, AT_ONCE = 256 };
static const char GREETING[] = "a program that runs as often as it is asked to\n";

struct request {
    uint32_t is_at_terminal; /* else standard input is a socket of which each read takes one piece */
    uint32_t refused, is_for_all_later; /* for refuse.c: the request for memory that is refused, or 0 */
    uint32_t words, word_bytes, pieces, text_bytes;
};

struct answer {
    int32_t status; /* or the signal that ended the run, below 0 */
    uint32_t asked; /* how many requests for memory refuse.c counted */
    uint32_t printed, said;
};

struct run {
    struct request request;
    char word_text[WORD_BYTES], *words[WORDS + 2]; /* after them a NULL, and another one for an empty environment */
    const uint32_t *sizes;
    const char *text;
    uint32_t sent; /* how many pieces */
    int ours, theirs, printed, said;
};

typedef int start(int (*)(int, char **, char **), int, char **, void (*)(void), void (*)(void), void (*)(void), void *);

/* These are in refuse.c, where it is linked with this file. */
__attribute__((weak)) void refuse_memory(uint32_t request, uint32_t is_for_all_later);
__attribute__((weak)) uint32_t requests_for_memory(void);

static void must(int holds) {
    if (!holds) _exit(70);
}

/* Reads so many bytes. At the end of all requests the process ends. */
static void read_whole(void *to, size_t size) {
    for (size_t ready = 0; ready < size;) {
        ssize_t more = read(0, (char *)to + ready, size - ready);
        if (more == 0) _exit(0);
        must(more > 0);
        ready += (size_t)more;
    }
}

static void write_whole(const void *from, size_t size) {
    for (size_t ready = 0; ready < size;) {
        ssize_t more = write(1, (const char *)from + ready, size - ready);
        must(more > 0);
        ready += (size_t)more;
    }
}

/* One of two rooms, with so many bytes at least. No run has it, or finds the C library's own room otherwise than it is. */
static char *room(int number, size_t size) {
    static struct { char *start; size_t size; } rooms[2];
    if (rooms[number].size < size) {
        if (rooms[number].size) munmap(rooms[number].start, rooms[number].size);
        rooms[number].size = size + 65536;
        rooms[number].start = mmap(NULL, size + 65536, PROT_READ | PROT_WRITE, MAP_PRIVATE | MAP_ANONYMOUS, -1, 0);
        must(rooms[number].start != MAP_FAILED && !madvise(rooms[number].start, size + 65536, MADV_DONTFORK));
    }
    return rooms[number].start;
}

static void read_request(struct run *run, char *name) {
    struct request *it = &run->request;
    read_whole(it, sizeof *it);
    must(it->words <= WORDS && it->word_bytes <= WORD_BYTES);
    read_whole(run->word_text, it->word_bytes);
    char *word = run->word_text;
    run->words[0] = name;
    for (uint32_t at = 1; at <= it->words; at++, word += strlen(word) + 1) run->words[at] = word;
    run->words[it->words + 1] = NULL;
    size_t sizes = it->pieces * sizeof(uint32_t);
    char *body = room(0, sizes + it->text_bytes);
    read_whole(body, sizes + it->text_bytes);
    run->sizes = (const uint32_t *)body, run->text = body + sizes, run->sent = 0;
}

/* Opens the master of a terminal as standard input of the run. All is written to the other end, and that is closed, before the
 * run reads: to one that reads meanwhile a kernel may say that the other end is closed before it gives what came last. */
static void open_terminal(struct run *run) {
    struct termios raw;
    int theirs;
    must(!openpty(&run->theirs, &theirs, NULL, NULL, NULL) && !tcgetattr(theirs, &raw));
    cfmakeraw(&raw);
    must(!tcsetattr(theirs, TCSANOW, &raw));
    must(write(theirs, run->text, run->request.text_bytes) == (ssize_t)run->request.text_bytes);
    close(theirs);
    run->ours = -1;
}

/* Opens a socket as standard input of the run, and our end of it. */
static void open_socket(struct run *run) {
    int ends[2];
    must(!socketpair(AF_UNIX, SOCK_SEQPACKET, 0, ends));
    run->ours = ends[0], run->theirs = ends[1];
}

/* Sends some of the pieces that are left. Returns how many, or -1 where one would have to wait or nobody reads. */
static int send_some(const struct run *run, int flags) {
    struct mmsghdr messages[AT_ONCE];
    struct iovec parts[AT_ONCE];
    uint32_t left = run->request.pieces - run->sent, many = left < AT_ONCE ? left : AT_ONCE;
    const char *text = run->text;
    memset(messages, 0, many * sizeof *messages);
    for (uint32_t at = 0; at < many; at++) {
        parts[at] = (struct iovec){(char *)text, run->sizes[run->sent + at]};
        messages[at].msg_hdr.msg_iov = parts + at, messages[at].msg_hdr.msg_iovlen = 1;
        text += parts[at].iov_len;
    }
    return sendmmsg(run->ours, messages, many, MSG_NOSIGNAL | flags);
}

/* Sends the pieces that are left, or, where the flags say so, those that need not wait. */
static void send_pieces(struct run *run, int flags) {
    while (run->sent < run->request.pieces) {
        int more = send_some(run, flags);
        if (more <= 0) return;
        for (; more > 0; more--) run->text += run->sizes[run->sent++];
    }
}

/* What the new process does before the program begins. */
static void take_places(const struct run *run) {
    alarm(SECONDS);
    must(dup2(run->theirs, 0) == 0 && dup2(run->printed, 1) == 1 && dup2(run->said, 2) == 2);
    if (run->ours >= 0) close(run->ours);
    close(run->theirs), close(run->printed), close(run->said);
}

/* Makes the new process, to which it returns 0. In the old one it hands on the input and returns when the run has ended. */
static pid_t make_run(struct run *run, int *status) {
    if (run->request.is_at_terminal) {
        open_terminal(run);
    } else {
        open_socket(run);
        send_pieces(run, MSG_DONTWAIT);
    }
    if (refuse_memory) refuse_memory(run->request.refused, run->request.is_for_all_later);
    pid_t child = fork();
    must(child >= 0);
    if (child == 0) return 0;
    close(run->theirs);
    if (run->ours >= 0) {
        send_pieces(run, 0);
        close(run->ours);
    }
    must(waitpid(child, status, 0) == child);
    return child;
}

static void answer(const struct run *run, int status) {
    struct answer it = {.status = WIFSIGNALED(status) ? -WTERMSIG(status) : WEXITSTATUS(status)};
    if (requests_for_memory) it.asked = requests_for_memory();
    it.printed = (uint32_t)lseek(run->printed, 0, SEEK_CUR);
    it.said = (uint32_t)lseek(run->said, 0, SEEK_CUR);
    char *all = room(1, sizeof it + it.printed + it.said), *said = all + sizeof it + it.printed;
    memcpy(all, &it, sizeof it);
    must(pread(run->printed, all + sizeof it, it.printed, 0) == (ssize_t)it.printed);
    must(pread(run->said, said, it.said, 0) == (ssize_t)it.said);
    write_whole(all, sizeof it + it.printed + it.said);
    must(!ftruncate(run->printed, 0) && !ftruncate(run->said, 0));
    must(!lseek(run->printed, 0, SEEK_SET) && !lseek(run->said, 0, SEEK_SET));
}

int __libc_start_main(int (*main)(int, char **, char **), int count, char **words, void (*init)(void), void (*fini)(void),
                      void (*loader)(void), void *stack) {
    static struct run run;
    start *begin = (start *)dlsym(RTLD_NEXT, "__libc_start_main");
    int status;
    run.printed = memfd_create("printed", 0), run.said = memfd_create("said", 0);
    must(begin && count && run.printed > 2 && run.said > 2);
    write_whole(GREETING, sizeof GREETING - 1);
    for (read_request(&run, words[0]); make_run(&run, &status); read_request(&run, words[0])) answer(&run, status);
    take_places(&run);
    return begin(main, (int)run.request.words + 1, run.words, init, fini, loader, stack);
}
