/* What the runs over memory need and a WebAssembly module lacks: malloc, realloc and free, by powers
 * of two, and products of 128 bits. A block that is freed serves the next request of its size;
 * nothing is given back to the host. Nothing proves this file. It is compiled at -O1, since a
 * compiler that knows __multi3 makes it call itself. */
typedef __SIZE_TYPE__ size_t;
enum { PAGE = 65536, HEAD = 16, LEAST = 5 };
extern unsigned char __heap_base;
static unsigned char *next;
static struct block { struct block *next; } *freed[64];

static int class_of(size_t size) {
    return size <= (size_t)1 << LEAST ? LEAST : 64 - __builtin_clzll(size - 1);
}

static int reaches(size_t end) {
    size_t held = __builtin_wasm_memory_size(0) * PAGE;
    return end <= held || __builtin_wasm_memory_grow(0, (end - held + PAGE - 1) / PAGE) != (size_t)-1;
}

void *malloc(size_t size) {
    if (size > (size_t)1 << 40) return 0;
    int class = class_of(size + HEAD);
    unsigned char *block = (unsigned char *)freed[class];
    if (block) {
        freed[class] = freed[class]->next;
    } else {
        if (!next) next = (unsigned char *)(((size_t)&__heap_base + HEAD - 1) / HEAD * HEAD);
        if (!reaches((size_t)next + ((size_t)1 << class))) return 0;
        block = next;
        next += (size_t)1 << class;
    }
    *(int *)block = class;
    return block + HEAD;
}

void free(void *at) {
    if (!at) return;
    struct block *block = (struct block *)((unsigned char *)at - HEAD);
    int class = *(int *)block;
    block->next = freed[class];
    freed[class] = block;
}

void *realloc(void *at, size_t size) {
    if (!at) return malloc(size);
    size_t room = ((size_t)1 << *(int *)((unsigned char *)at - HEAD)) - HEAD;
    if (size <= room) return at;
    void *moved = malloc(size);
    if (!moved) return 0;
    __builtin_memcpy(moved, at, room);
    free(at);
    return moved;
}

typedef unsigned __int128 wide;
typedef unsigned long long word;

wide __multi3(wide a, wide b) {
    word left = (word)a, right = (word)b, mask = 0xffffffff;
    word low = (left & mask) * (right & mask);
    word first = (left >> 32) * (right & mask), second = (left & mask) * (right >> 32);
    word middle = (low >> 32) + (first & mask) + second;
    word high = (left >> 32) * (right >> 32) + (first >> 32) + (middle >> 32)
        + left * (word)(b >> 64) + (word)(a >> 64) * right;
    return (wide)high << 64 | (middle << 32 | (low & mask));
}
