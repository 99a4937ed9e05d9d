/* heap.c: the three functions by which proved code takes memory, over malloc, realloc and free. The
 * toolchain has them for x86-64 alone; here they are as it has them there, for other machines. A request
 * for no bytes is one for its alignment, which is never more than malloc's. Nothing proves this file. */
typedef __SIZE_TYPE__ size_t;
void *malloc(size_t size);
void *realloc(void *at, size_t size);
void free(void *at);

struct tried { size_t is_there; void *at; };
static unsigned char nothing;

static struct tried tried(void *at) { return (struct tried){at != 0, at ? at : &nothing}; }

struct tried rattle_alloc(size_t size, size_t align) { return tried(malloc(size ? size : align)); }

struct tried rattle_realloc(void *at, size_t old, size_t size, size_t align) {
    (void)old;
    return tried(realloc(at, size ? size : align));
}

void rattle_dealloc(void *at) { free(at); }
